// 32 KiB of output of BLAKE2Xb and BLAKE2Xs by golang.org/x/crypto, for programs in C.
package main

import "C"

import (
	"unsafe"

	"golang.org/x/crypto/blake2b"
	"golang.org/x/crypto/blake2s"
)

const size = 32768

type output interface {
	Write([]byte) (int, error)
	Read([]byte) (int, error)
}

func read(xof output, message *C.uchar, length C.size_t, out *C.uchar) {
	xof.Write(unsafe.Slice((*byte)(unsafe.Pointer(message)), length))
	xof.Read(unsafe.Slice((*byte)(unsafe.Pointer(out)), size))
}

//export go_blake2xb
func go_blake2xb(message *C.uchar, length C.size_t, out *C.uchar) {
	xof, _ := blake2b.NewXOF(size, nil)
	read(xof, message, length, out)
}

//export go_blake2xs
func go_blake2xs(message *C.uchar, length C.size_t, out *C.uchar) {
	xof, _ := blake2s.NewXOF(size, nil)
	read(xof, message, length, out)
}

func main() {}
