//go:build vt220_static && !vt220_source

package vt220

// The installed static library, as pkg-config finds it: the program then runs without libvt220.so. pkg-config also names that one, and
// --as-needed leaves it out.

// #cgo pkg-config: vt220
// #cgo LDFLAGS: -l:libvt220.a -Wl,--as-needed
import "C"
