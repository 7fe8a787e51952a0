// The colouring under synchroniser alpha, a goroutine for each node: what `forestplan plan` writes.
//
//	go build -o plan . && ./plan [-links] < network.col
//
// Each node has one inbox channel; with -links each directed link is a channel of capacity 4.
package main

import (
	"bufio"
	"flag"
	"fmt"
	"log"
	"os"
	"sort"
	"sync"
)

const capacity = 4

func build(net Network, links bool) []*Node {
	delta, forests := net.Sizes()
	nodes := make([]*Node, len(net.ids))
	for v, near := range net.near {
		degree := len(near)
		nodes[v] = &Node{
			last: 12 + 3*forests*(delta+1), peers: make([]*Node, degree), back: make([]int32, degree),
			program: NewColouring(net.ids[v], degree, delta, forests),
		}
		if links {
			nodes[v].in, nodes[v].out = make([]chan Wire, degree), make([]chan Wire, degree)
			nodes[v].wake = make(chan struct{}, 1)
		} else {
			nodes[v].inbox = make(chan Wire, capacity*degree)
		}
	}
	for v, near := range net.near {
		for port, w := range near {
			back := sort.SearchInts(net.near[w], v)
			nodes[v].peers[port], nodes[v].back[port] = nodes[w], int32(back)
			if links {
				link := make(chan Wire, capacity)
				nodes[v].out[port], nodes[w].in[back] = link, link
			}
		}
	}
	return nodes
}

func main() {
	links := flag.Bool("links", false, "a channel of capacity 4 for each directed link")
	flag.Parse()
	net, err := Read(os.Stdin)
	if err != nil {
		log.Fatal(err)
	}
	nodes := build(net, *links)
	var all sync.WaitGroup
	all.Add(len(nodes))
	for _, v := range nodes {
		go func(v *Node) {
			defer all.Done()
			v.Run()
		}(v)
	}
	all.Wait()
	out := bufio.NewWriter(os.Stdout)
	fmt.Fprintln(out, "plan")
	for v, node := range nodes {
		fmt.Fprintln(out, v+1, node.program.merged+1)
	}
	if err := out.Flush(); err != nil {
		log.Fatal(err)
	}
}
