// Written by `python3 build page-types` from src/forestplan/pictures/page_data.py.

interface PlainNode {
  x: number;
  y: number;
  id: string;
  name: string;
  bars: number[];
}

interface NetNode extends PlainNode {
  label: string;
}

interface Net {
  name: string;
  nodes: NetNode[];
  edges: [number, number][];
}

interface AnyPulse {
  caption: string;
  said: string;
  step: [number, number, number] | null;
  chosen: Record<number, number>;
  colours: (number | string)[][] | null;
  puts: [number, number, string, number | string][];
}

interface PulseOfColouring extends AnyPulse {
  results?: undefined;
  drawn?: undefined;
  new?: undefined;
}

interface PulseOfProgram extends AnyPulse {
  results: string[];
  drawn: Record<number, [number | null, number | null]>;
  new: number[];
}

type Pulse = PulseOfColouring | PulseOfProgram;

interface RoundsFound {
  last: number;
  forests: number;
  pulses: Pulse[];
  first: number[];
  channels: boolean;
  parents: [number, number, number][];
}

interface PlayerData {
  net: Net;
  film: RoundsFound;
}

interface Look {
  pulse: number;
  safe: boolean;
  done: boolean;
  waits: [string, number][];
  has: [string, number][];
  keeps: [string, number][];
  found: number | string;
}

type Row = [
  stamp: number,
  node: number,
  look: number,
  text: number,
];

type WireRow = [
  v: number,
  w: number,
  text: number,
  put: number,
  put_stamp: number,
  take: number | null,
  take_stamp: number | null,
];

interface RunTable {
  name: string;
  start: Look[];
  rows: Row[];
  wires: WireRow[];
  looks: Look[];
  texts: string[];
  stamps: [number, number];
  all: [number, number][];
}

interface RunFound {
  table: RunTable;
  last: number;
  pulses: [number, number];
}

interface WatchData {
  net: Net;
  last: number;
  pulses: [number, number];
  runs: RunTable[];
  same: boolean[];
  sent: [number, number, string][][];
}

interface ReactedLook {
  acts: number;
  able: boolean;
  found: string;
}

interface ReactionsTable {
  name: string;
  start: ReactedLook[];
  rows: Row[];
  wires: WireRow[];
  looks: ReactedLook[];
  texts: string[];
  stamps: [number, number];
}

interface ReactionsData {
  net: Net;
  run: ReactionsTable;
}
