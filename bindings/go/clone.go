//go:build !pkgconfig

package serialcheck

// The archive of the clone, or of the folder that tools/package made, is linked in.

/*
#cgo CFLAGS: -I${SRCDIR}/../../include
#cgo amd64 LDFLAGS: -L${SRCDIR}/../../prebuilt -L${SRCDIR}/../../lib -l:libserialcheck.a
#cgo arm64 LDFLAGS: -L${SRCDIR}/../../prebuilt/aarch64 -L${SRCDIR}/../../linux-aarch64/lib -l:libserialcheck.a
*/
import "C"
