//go:build pkgconfig

package serialcheck

// With the tag pkgconfig the library is the one that pkg-config finds.

/*
#cgo pkg-config: serialcheck
*/
import "C"
