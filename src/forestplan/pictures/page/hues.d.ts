// The module that src/forestplan/pictures/pages.py makes of what all marks look like
// (src/forestplan/pictures/palette.py).
export const INK: string;
export const BLACK: string;
export const WHITE: string;
export const WRONG: string;
export const WIRES: Record<string, string>;
export const PALE: Record<string, string>;
export const LOOKS: {hue: string, is_ring: boolean, ink: string, size: number}[];
export const PERIOD: number;
export const HUES: [string, string][];
export const FORESTS: [string, string][];
export const GREYS: [string, string][];
export const SQUARE_SIZES: number[];
export const BAR_SIZES: number[];
export const MOST_BARS: number;
export const MOST_DIGITS: number;
// A ring around a node: how wide it is, what is between it and the node, and how much farther out the next one is.
export const OUTER_RING: number;
export const RING_GAP: number;
export const NEXT_RING: number;
// The rims of a node without a channel and of a message, and the size of the number of such a node, in radii.
export const BLANK_RIM: number;
export const PILL_RIM: number;
export const BLANK_SIZE: number;
// The radius of a barred channel beside a node, and what is between two of them.
export const BAR_RADIUS: number;
export const BAR_GAP: number;
