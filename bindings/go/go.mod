module serialcheck

go 1.18
