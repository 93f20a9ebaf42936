//go:build !vt220_source && !vt220_static

package vt220

// The installed library, as pkg-config finds it.

// #cgo pkg-config: vt220
import "C"
