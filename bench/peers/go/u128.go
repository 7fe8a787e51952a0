package main

import "math/bits"

// U128 is an identifier or a colour.
type U128 struct{ Hi, Lo uint64 }

// Small is a number of 64 bits.
func Small(n int) U128 { return U128{Lo: uint64(n)} }

// Less says whether a is less than b.
func (a U128) Less(b U128) bool { return a.Hi < b.Hi || a.Hi == b.Hi && a.Lo < b.Lo }

// Bit is bit i, from the lowest.
func (a U128) Bit(i int) uint64 {
	if i < 64 {
		return a.Lo >> i & 1
	}
	return a.Hi >> (i - 64) & 1
}

// differ is the lowest bit at which a and b differ; they do.
func (a U128) differ(b U128) int {
	if i := bits.TrailingZeros64(a.Lo ^ b.Lo); i < 64 {
		return i
	}
	return 64 + bits.TrailingZeros64(a.Hi^b.Hi)
}
