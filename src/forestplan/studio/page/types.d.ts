// The types of the studio's modules, besides those of src/forestplan/pictures/page/ and of what they ask of the server
// and get (calls.d.ts): what the page holds.

// The network that is drawn. `example` is the name of the example that it is, if it is one.
interface Drawn extends Net { example: string; }
// A change of it: the node that it takes away, or that comes back.
interface Renumbering { removed?: number | null; restored?: number | null; }
// A network that is loaded takes the place of another one, which it leaves first.
type Change = "edit" | "move" | "undo" | "leave" | "load";

// What is written into an address: of what isn't said, nothing.
type State = {[Name in Exclude<keyof Values, "net">]?: Values[Name] | null} & {net?: Net | null};

// The tabs. `more` is what a click elsewhere hands on, and `asked` the place that an address asks for; `step` is a step
// that is chosen on the stage.
interface More {
  at?: number;
  asked?: number;
  play?: boolean;
  welcome?: boolean;
  fresh?: boolean;
  transcript?: string;
  steps?: string[];
  kind?: PictureKind;
}
interface Tab {
  hint(): string;
  show(): unknown;
  enter(more?: More): void;
  click(v: number | null, edge: Edge | null, event: MouseEvent | KeyboardEvent, step?: string | null): unknown;
  link(): State;
  follow(given: Values): unknown;
  leave?(): void;
  key?(event: KeyboardEvent, on: number | null): boolean;
  step?(way: number): void;
  rate?(): number;
  past?(at: number): number;
  stopped?(): void;
}
interface Tabs {
  draw: Tab;
  rounds: Tab & {load(program?: string): Promise<boolean>, forest(): number};
  run: Tab & {transcript(): Promise<string | null>, ask(): Promise<boolean>};
  adversary: Tab;
  check: Tab;
  pictures: Tab;
}
interface Hooks {
  show(): void;
  go(tab: TabName, more?: More): void;
  link(): void;
  copy: CopyLink;
  open(place: string): string;
  here(): string;
  answered(asked: PredictOf | WaitsOf): void;
}
// Whose node, and which pulse, a question of a tab is about.
type PredictOf = Omit<PredictCall, "guess">;
type WaitsOf = Omit<WaitsCall, "guess">;
// Copies a link to what is seen, but for what is given otherwise; the button says that it is done.
type CopyLink = (button: HTMLButtonElement, more?: State) => Promise<void>;

// What is seen.
interface Seen {
  tab: TabName;
  node: number | null;
  edge: Edge | null;
  lesson: number | null;
  step: number | null;
  lecture: number | null;
  hello: Hello | null;
  program: string;
  passes: number;
  root: number | null;
  slow: Edge[];
  lazy: number[];
}
// A question on a node, and the call that judges its answer, if it can be answered. A pick is an answer that is tapped;
// of `choices` those are ticked that are part of the answer. `compared` are the numbers of which it is made, each with
// whose it is; `tells` says that the reason has the answer in it.
interface Hint { text: string; call?: undefined; }
interface OfRounds {
  text: string;
  call: "predict";
  asked: PredictOf;
  picks: string[];
  compared: [string, Numeral][];
  tells: boolean;
  choices?: undefined;
}
interface OfWaits {
  text: string;
  call: "waits";
  asked: WaitsOf;
  choices: string[];
  picks?: undefined;
  compared?: undefined;
  tells?: undefined;
}
interface OfSends {
  text: string;
  call: "sends";
  asked: Omit<SendsCall, "guess">;
  choices: string[];
  picks?: undefined;
  compared?: undefined;
  tells?: undefined;
}
type Asked = Hint | OfRounds | OfWaits | OfSends;

// The rules that can be left out, by their names.
type Rules = Record<string, RuleSaid>;
// What a call asks has the fields of the call and no others.
type Only<Asked, Fields> = Record<Exclude<keyof Asked, keyof Fields>, never>;
// `progress` is told how far a call is, and `part` a part of a run that is under way.
interface CallOptions {
  key?: string;
  progress?: (done: number, of: number) => void;
  part?: (found: RunFound) => void;
}

// The elements of the page, by their names (page.html).
interface Elements {
  skip: HTMLButtonElement;
  name: HTMLElement;
  closed: HTMLElement;
  closedsaid: HTMLElement;
  closedhow: HTMLElement;
  lessons: HTMLSelectElement;
  lecture: HTMLSelectElement;
  examples: HTMLSelectElement;
  save: HTMLSelectElement;
  copy: HTMLButtonElement;
  large: HTMLButtonElement;
  left: HTMLElement;
  stage: HTMLElement;
  headline: HTMLElement;
  welcome: HTMLElement;
  story: HTMLElement;
  replay: HTMLButtonElement;
  net: SVGSVGElement;
  second: SVGSVGElement;
  small: SVGSVGElement;
  picture: HTMLElement;
  empty: HTMLElement;
  hint: HTMLElement;
  zoom: HTMLElement;
  zoomin: HTMLButtonElement;
  zoomout: HTMLButtonElement;
  zoomfit: HTMLButtonElement;
  busy: HTMLElement;
  code: HTMLElement;
  codesaid: HTMLElement;
  codefault: HTMLElement;
  codebox: HTMLElement;
  numbers: HTMLElement;
  codetext: HTMLElement;
  before: HTMLElement;
  ran: HTMLElement;
  after: HTMLElement;
  time: HTMLElement;
  back: HTMLButtonElement;
  play: HTMLButtonElement;
  next: HTMLButtonElement;
  change: HTMLButtonElement;
  slider: HTMLInputElement;
  when: HTMLOutputElement;
  speed: HTMLSelectElement;
  legend: HTMLElement;
  unproved: HTMLElement;
  begin: HTMLButtonElement;
  progress: HTMLOutputElement;
  side: HTMLElement;
  live: HTMLElement;
  lesson: HTMLElement;
  wrong: HTMLElement;
  undo: HTMLButtonElement;
  redo: HTMLButtonElement;
  delete: HTMLButtonElement;
  tidy: HTMLButtonElement;
  clear: HTMLButtonElement;
  plan: HTMLElement;
  chosen: HTMLElement;
  make: HTMLFormElement;
  text: HTMLTextAreaElement;
  apply: HTMLButtonElement;
  file: HTMLInputElement;
  notes: HTMLElement;
  unsaid: HTMLElement;
  unsaidwhat: HTMLElement;
  unsaidchoices: HTMLElement;
  program2: HTMLSelectElement;
  rules2: HTMLDetailsElement;
  without2said: HTMLElement;
  without2: HTMLElement;
  broken: HTMLElement;
  allrules: HTMLElement;
  predicts: HTMLInputElement;
  question: HTMLElement;
  said: HTMLElement;
  forests: HTMLElement;
  strips: SVGSVGElement;
  why: HTMLElement;
  how: HTMLFormElement;
  program: HTMLSelectElement;
  made: HTMLSelectElement;
  policy: HTMLSelectElement;
  seed: HTMLInputElement;
  workers: HTMLInputElement;
  capacity: HTMLInputElement;
  policysaid: HTMLElement;
  handed: HTMLElement;
  handedsaid: HTMLElement;
  forget: HTMLButtonElement;
  again: HTMLButtonElement;
  payloads: HTMLInputElement;
  beside: HTMLInputElement;
  besidesaid: HTMLElement;
  two: HTMLInputElement;
  lazybox: HTMLElement;
  lazy: HTMLInputElement;
  lazysaid: HTMLElement;
  policy2: HTMLSelectElement;
  seed2: HTMLInputElement;
  judge: HTMLElement;
  apart: HTMLElement;
  judgehere: HTMLElement;
  same: HTMLElement;
  costs: HTMLElement;
  judge2: HTMLElement;
  same2: HTMLElement;
  costs2: HTMLElement;
  now: HTMLElement;
  table: HTMLElement;
  program3: HTMLSelectElement;
  withoutsaid: HTMLElement;
  without: HTMLElement;
  rule: HTMLElement;
  undostep: HTMLButtonElement;
  chance: HTMLButtonElement;
  chance20: HTMLButtonElement;
  instep: HTMLButtonElement;
  anew: HTMLButtonElement;
  instepsaid: HTMLElement;
  predicts2box: HTMLElement;
  drawnbox: HTMLElement;
  drawnrun: HTMLButtonElement;
  handoverbox: HTMLElement;
  listfor: HTMLElement;
  handover: HTMLButtonElement;
  handoversaid: HTMLElement;
  predicts2: HTMLInputElement;
  dare: HTMLSelectElement;
  dared: HTMLElement;
  normal: HTMLButtonElement;
  question2: HTMLElement;
  stepsaid: HTMLElement;
  possible: HTMLElement;
  list: HTMLTextAreaElement;
  playlist: HTMLButtonElement;
  verdict: HTMLElement;
  blank: HTMLButtonElement;
  take: HTMLButtonElement;
  ones: HTMLButtonElement;
  transcript: HTMLTextAreaElement;
  judged: HTMLButtonElement;
  watchit: HTMLButtonElement;
  judgement: HTMLElement;
  kinds: HTMLElement;
  kindsaid: HTMLElement;
  ofprogram: HTMLElement;
  program4: HTMLSelectElement;
  passes: HTMLInputElement;
  ofnode: HTMLElement;
  nodenumber: HTMLInputElement;
  ofrun: HTMLElement;
  pulses: HTMLInputElement;
  keep: HTMLAnchorElement;
}

// A click or a drag on the stage: the node or the message where it began, where it began, and where it has come.
interface Drag {
  v: number | null;
  step: string | null | undefined;
  x: number;
  y: number;
  moved: {x: number, y: number} | null;
  key: string;
  // Of the nodes when it began.
  radius: number;
}
// What browsers have, and TypeScript 4.8 doesn't know.
interface HTMLSelectElement { showPicker?(): void; }
// For whoever tries the page out: its parts.
interface Window { studio: object; recorded(name: string, piece: Piece): void; }
// What a published page is given: what there is to choose from, what is usual in each call, and the names of its
// pieces.
declare const RECORDED: {hello: Hello, usual: Record<string, Record<string, unknown>>, pieces: string[]};

// What the tabs hold. `of` is what a film is of: the program and the network.
interface Rounds {
  forest: number;
  why: WhyFound | null;
  whyOf: number | null;
  film: import("./rounds.js").RoundsFilm | null;
  of: string | null;
  without: string;
  predicts: boolean;
}
type RunFilm = import("./run.js").RunFilm;
interface Run {
  film: RunFilm | null;
  found: WholeRun | null;
  of: string | null;
  key: string | null;
  steps: string[];
  transcript: string | null;
  other: Order | null;
  film2: RunFilm | null;
  found2: WholeRun | null;
  key2: string | null;
  judgedAt: number | null;
  at: number;
}
// The file of a program of one's own: its text, and the first and the last line of each function.
interface OwnFile {
  name: string;
  version: string;
  text: string | null;
  lines: Record<string, [number, number]>;
  fault: string;
}
interface Steps { made: string[]; found: StepsFound | ReactionsFound | null; without: string; predicts: boolean; dare: string; }

// A table of runs of a published page, and a run on its way: `at` are the numbers of the nodes' states, and `wire` is
// what was taken last.
type TableOfRuns = AllRuns | AllReactions;
interface Played {
  made: string[];
  at: number[];
  links: Map<string, string[]>;
  lines: string[];
  entries: number;
  said: string;
  wire: string;
  fault: string | null;
  over: boolean;
}
