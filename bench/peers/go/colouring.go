package main

import "sort"

// Colouring is what a node knows, and the rounds of the colouring.
type Colouring struct {
	id             U128
	delta, forests int

	up             []bool // by port: whether it leads to the parent
	forest         []int  // by port
	parents        int
	colour, before []U128 // by forest

	old, merged   int // colours of the forests that are merged, before this one and with it
	chosen        []bool
	at, class, of int // the forest that is merged; the colour in it, and the old colour, whose nodes choose now
}

// NewColouring is that of a node before its first pulse.
func NewColouring(id U128, degree, delta, forests int) Colouring {
	return Colouring{
		id: id, delta: delta, forests: forests,
		up: make([]bool, degree), forest: make([]int, degree),
		colour: make([]U128, forests), before: make([]U128, forests), chosen: make([]bool, delta+1),
	}
}

// round is what the node does at its pulse with the payloads of the one before.
func (c *Colouring) round(v *Node, box []Item) {
	switch {
	case v.pulse == 1:
		c.orient(v, box)
	case v.pulse == 2:
		for _, item := range box {
			c.forest[item.port] = int(item.x.Lo)
		}
		for f := range c.colour {
			c.colour[f] = c.id
		}
		c.sendColours(v)
	case v.pulse < 12:
		c.reduce(v.pulse, box)
		c.sendColours(v)
	case v.pulse == 12:
		c.reduce(v.pulse, box)
	default:
		c.merge(v, box)
	}
}

// orient numbers the neighbours with greater identifiers, ascending: each is the parent in one forest.
func (c *Colouring) orient(v *Node, box []Item) {
	sort.Slice(box, func(a, b int) bool { return box[a].x.Less(box[b].x) })
	for _, item := range box {
		if c.id.Less(item.x) {
			c.up[item.port], c.forest[item.port] = true, c.parents
			v.payload(int(item.port), Small(c.parents))
			c.parents++
		}
	}
}

func (c *Colouring) sendColours(v *Node) {
	for port, f := range c.forest {
		if !c.up[port] {
			v.payload(port, c.colour[f])
		}
	}
}

// least is the least colour that is neither.
func least(a, b U128) U128 {
	x := Small(0)
	for x == a || x == b {
		x.Lo++
	}
	return x
}

// reduce makes the colours of all forests fewer: by bit steps to six, and then by shifts and drops to three.
func (c *Colouring) reduce(pulse int, box []Item) {
	parents := make([]U128, c.parents)
	for _, item := range box {
		parents[c.forest[item.port]] = item.x
	}
	for f, own := range c.colour {
		isRoot := f >= c.parents
		switch {
		case pulse <= 6 && isRoot:
			c.colour[f] = U128{Lo: own.Bit(0)}
		case pulse <= 6:
			i := own.differ(parents[f])
			c.colour[f] = U128{Lo: 2*uint64(i) + own.Bit(i)}
		case pulse%2 == 1 && isRoot:
			c.before[f], c.colour[f] = own, least(own, own)
		case pulse%2 == 1:
			c.before[f], c.colour[f] = own, parents[f]
		case own == Small(9-pulse/2) && isRoot:
			c.colour[f] = least(c.before[f], c.before[f])
		case own == Small(9-pulse/2):
			c.colour[f] = least(c.before[f], parents[f])
		}
	}
}

// merge lets the nodes of one pair of colours choose a channel.
func (c *Colouring) merge(v *Node, box []Item) {
	if c.class == 0 && c.of == 0 {
		c.old = c.merged
		for channel := range c.chosen {
			c.chosen[channel] = false
		}
	}
	for _, item := range box {
		c.chosen[item.x.Lo] = true
	}
	isLast := c.class == 2 && c.of == c.delta
	if c.of == c.old && c.colour[c.at] == Small(c.class) {
		c.merged = 0
		for c.chosen[c.merged] {
			c.merged++
		}
		for port, f := range c.forest {
			if f <= c.at && !isLast {
				v.payload(port, Small(c.merged))
			}
		}
	}
	if c.of++; c.of > c.delta {
		c.of = 0
		c.class++
	}
	if c.class == 3 {
		c.class = 0
		c.at++
	}
}
