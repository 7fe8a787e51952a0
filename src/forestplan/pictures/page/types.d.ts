// The types that the modules share, besides those of what src/forestplan/ works out for them (data.d.ts).
// tests/pages/test_scripts.py checks them.

// A number that JavaScript can hold, or its digits.
type Numeral = number | string;
type Edge = [number, number];
// A place of the stage; a box by its middle and by half its width and half its height; and where a label is, by the
// number of its text, its side and its place.
type Point = [number, number];
type Box = [number, number, number, number];
type Spot = [number, number, number, number];

type Attributes = Record<string, string | number | boolean | null | undefined>;
// A description of an element of a picture; what is no mark is left out where marks are asked for.
interface Mark { name: string; attributes: Attributes; inside: Inside; }
type Marks = (Mark | null | undefined | boolean | 0 | "")[];
type Inside = string | null | Marks;
// An element that was made of a mark; it knows the mark, and what it shows.
interface Shown extends SVGElement { mark?: Mark; shown?: Attributes; inside?: string | null; }
// A text beside a node, and its size.
interface Label { said: string; size: number; }
// A node's circle on the stage: its number, its place and its radius.
type OfNode<Result> = (v: number, x: number, y: number, r: number) => Result;

// What is drawn on a stage, as its method `draw` says.
interface Drawing {
  edge?: (v: number, w: number) => Attributes;
  node: OfNode<Marks>;
  label?: ((v: number) => string) | null;
  says?: (v: number) => string;
  rings?: (v: number) => string[];
  around?: (v: number) => number;
  links?: () => Marks;
  above?: () => Marks;
  bars?: boolean;
  apart?: number;
  below?: boolean;
  words?: boolean;
  still?: unknown[];
}
// What is drawn of a node, but for its number.
interface LookOfNode {
  node: OfNode<Marks>;
  said: string;
  says: (v: number) => string;
  rings: (v: number) => string[];
  around: (v: number) => number;
  bars: boolean;
}

// `quiet` leaves out the messages, and `plain` the pairs by which turns are taken.
interface RoundsOptions {
  forest?: number;
  node?: number | null;
  why?: WhyFound | null;
  quiet?: boolean;
  plain?: boolean;
}

// A neighbour, and what is awaited of it, or what it has sent.
type OfNeighbour = [string, number];
// How messages on a link look: their words, with room or without, and their colours.
interface LooksOfMessages {
  shown(said: string, isLong: boolean): string;
  look(said: string): Attributes & {ink?: string};
}
interface RunOptions { at?: number; node?: number | null; only?: boolean; slow?: Edge[]; lazy?: number[]; }
interface WaitsOptions {
  last: number;
  only?: number | null;
  lit?: number | null;
  head?: string;
  more?: (v: number, is: Look) => string | number;
}

type Stage = import("./stage.js").Stage;
// The slider of a page and its buttons; what a page does with it.
interface Controls {
  slider: HTMLInputElement;
  play: HTMLButtonElement;
  back: HTMLButtonElement;
  next: HTMLButtonElement;
  speed: HTMLSelectElement;
}
interface Watcher {
  show: (at: number) => unknown;
  step: (way: number) => unknown;
  rate: () => number;
  ended?: () => unknown;
  past?: (at: number) => number;
}
interface PageThatStandsAlone {
  show: (at: number) => string;
  follow: (place: string) => void;
  step: (way: number) => unknown;
  rate: () => number;
  click: (v: number) => void;
}
// The elements of a page that stands alone, by their names (alone.html).
interface Elements {
  left: HTMLElement;
  stage: HTMLElement;
  net: SVGSVGElement;
  second: SVGSVGElement;
  time: HTMLElement;
  back: HTMLButtonElement;
  play: HTMLButtonElement;
  next: HTMLButtonElement;
  slider: HTMLInputElement;
  when: HTMLOutputElement;
  speed: HTMLSelectElement;
  side: HTMLElement;
  said: HTMLElement;
  forests: HTMLElement;
  only: HTMLElement;
  payloads: HTMLInputElement;
  table: HTMLElement;
  legend: HTMLElement;
}

// The data of a page that stands alone: of rounds, of one run or two, or of a run without rounds.
declare const D: PlayerData & WatchData & ReactionsData;

// What browsers have, and TypeScript 4.8 doesn't know.
interface Array<T> { with(index: number, value: T): T[]; }
