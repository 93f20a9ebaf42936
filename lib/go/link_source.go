//go:build vt220_source

package vt220

// The library that make lib builds into out/ of this repository.

// #cgo CFLAGS: -I${SRCDIR}/../c/include
// #cgo LDFLAGS: ${SRCDIR}/../../out/libvt220.a
import "C"
