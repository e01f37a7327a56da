// Makes the calls of golang.org/x/crypto/blake2b and blake2s that it reads, one in a line, and prints what each returns:
//
//	new HASH SIZE KEY       the number of a new hash, or of an output, whose SIZE may be 0 for `unknown`
//	write STATE BYTES
//	sum STATE
//	read STATE NUMBER
//	reset STATE
//
// Bytes are in digits. After `=` comes the result, and after `!` why a call is refused.
package main

import (
	"bufio"
	"encoding/hex"
	"fmt"
	"hash"
	"io"
	"os"
	"strconv"
	"strings"

	"golang.org/x/crypto/blake2b"
	"golang.org/x/crypto/blake2s"
)

var states []interface{}

func newState(name string, size int, key []byte) (made interface{}, err error) {
	switch {
	case name == "blake2b":
		return blake2b.New(size, key)
	case name == "blake2s" && size == 16:
		return blake2s.New128(key)
	case name == "blake2s":
		return blake2s.New256(key)
	case name == "blake2xb":
		return blake2b.NewXOF(uint32(size), key)
	}
	return blake2s.NewXOF(uint16(size), key)
}

// call makes a call. A write after a read panics.
func callVerb(verb string, words []string) (result string, err error) {
	defer func() {
		if why := recover(); why != nil {
			err = fmt.Errorf("%v", why)
		}
	}()
	if verb == "new" {
		size, _ := strconv.Atoi(words[1])
		key, _ := hex.DecodeString(words[2])
		made, err := newState(words[0], size, key)
		states = append(states, made)
		return strconv.Itoa(len(states) - 1), err
	}
	number, _ := strconv.Atoi(words[0])
	state := states[number]
	switch verb {
	case "write":
		data, _ := hex.DecodeString(words[1])
		_, err = state.(io.Writer).Write(data)
	case "sum":
		result = hex.EncodeToString(state.(hash.Hash).Sum(nil))
	case "read":
		count, _ := strconv.Atoi(words[1])
		out := make([]byte, count)
		if count == 0 {
			state.(io.Reader).Read(out)
		}
		_, err = io.ReadFull(state.(io.Reader), out)
		result = hex.EncodeToString(out)
	case "reset":
		state.(interface{ Reset() }).Reset()
	}
	return result, err
}

func main() {
	lines := bufio.NewReader(os.Stdin)
	for {
		line, err := lines.ReadString('\n')
		if err != nil {
			return
		}
		words := strings.Split(strings.TrimSuffix(line, "\n"), " ")
		result, err := callVerb(words[0], words[1:])
		if err != nil {
			fmt.Println("!", err)
		} else {
			fmt.Println("=", result)
		}
	}
}
