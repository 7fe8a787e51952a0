package main

import (
	"bufio"
	"fmt"
	"io"
	"math/big"
	"sort"
	"strings"
)

// Network has the identifier and the neighbours of each vertex, from 0, the neighbours ascending.
type Network struct {
	ids  []U128
	near [][]int
}

func number(word string) (n int, err error) {
	_, err = fmt.Sscan(word, &n)
	return n, err
}

func identifier(word string) (U128, error) {
	n, ok := new(big.Int).SetString(word, 10)
	if !ok || n.Sign() < 0 || n.BitLen() > 128 {
		return U128{}, fmt.Errorf("identifier %q", word)
	}
	var words [16]byte
	n.FillBytes(words[:])
	var id U128
	for i, b := range words {
		if i < 8 {
			id.Hi = id.Hi<<8 | uint64(b)
		} else {
			id.Lo = id.Lo<<8 | uint64(b)
		}
	}
	return id, nil
}

// Read reads the lines p, e and i of a network in DIMACS form. A line with fewer than three words says nothing.
func Read(from io.Reader) (Network, error) {
	var net Network
	known := map[[2]int]bool{}
	lines := bufio.NewScanner(from)
	for lines.Scan() {
		words := strings.Fields(lines.Text())
		if len(words) < 3 || words[0] == "c" {
			continue
		}
		if err := net.line(words, known); err != nil {
			return net, err
		}
	}
	for _, near := range net.near {
		sort.Ints(near)
	}
	return net, lines.Err()
}

func (net *Network) line(words []string, known map[[2]int]bool) error {
	if words[0] == "p" {
		n, err := number(words[2])
		net.ids, net.near = make([]U128, n), make([][]int, n)
		for v := range net.ids {
			net.ids[v] = Small(v + 1)
		}
		return err
	}
	a, err := number(words[1])
	if err != nil {
		return err
	}
	if words[0] == "i" {
		net.ids[a-1], err = identifier(words[2])
		return err
	}
	b, err := number(words[2])
	if a > b {
		a, b = b, a
	}
	if edge := [2]int{a, b}; !known[edge] {
		known[edge] = true
		net.near[a-1] = append(net.near[a-1], b-1)
		net.near[b-1] = append(net.near[b-1], a-1)
	}
	return err
}

// Sizes are the greatest degree, and the greatest number of neighbours with a greater identifier.
func (net Network) Sizes() (degree, forests int) {
	for v, near := range net.near {
		higher := 0
		for _, w := range near {
			if net.ids[v].Less(net.ids[w]) {
				higher++
			}
		}
		if len(near) > degree {
			degree = len(near)
		}
		if higher > forests {
			forests = higher
		}
	}
	return degree, forests
}
