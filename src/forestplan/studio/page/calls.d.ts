// Written by `python3 build page-types` from src/forestplan/studio/answers.py, messages.py, calls.py and recorded_answers.py.

type Form = "rounds" | "reactions";

type TabName = "draw" | "rounds" | "run" | "adversary" | "check" | "pictures";

type PictureKind = "plan" | "results" | "rounds" | "bits" | "why" | "run";

type Written = "network" | "word" | "text" | "number" | "flag" | "rules" | "list" | "run";

interface KindOfNetwork {
  sizes: string[];
  chance: boolean;
}

interface RuleSaid {
  says: string;
  without: string;
}

interface RulesSaid {
  orders: Record<string, RuleSaid>;
  links: Record<string, RuleSaid>;
  rounds: Record<string, Record<string, RuleSaid>>;
}

type ExerciseKind = "said" | "seen" | "predicted";

interface Exercise {
  name: string;
  kind: ExerciseKind;
  asks: string;
  picks: string[];
  hint: string;
  answer: string;
  node: number;
  pulse: number;
}

interface LessonStep {
  place: string;
  tab: TabName;
  do: string;
  exercise: Exercise | null;
}

interface Lesson {
  number: number;
  title: string;
  ask: string;
  steps: LessonStep[];
  text: string;
}

interface LecturePlace {
  minutes: string;
  title: string;
  place: string;
  say: string;
}

interface Published {
  commit: string;
  sizes: number[];
}

interface DareSaid {
  title: string;
  goal: string;
}

interface Hello {
  proved: boolean;
  most: number;
  opened: Net | null;
  examples: string[];
  kinds: Record<string, KindOfNetwork>;
  programs: string[];
  own: Record<string, Form>;
  samples: string[];
  passes: number;
  policies: Record<string, string>;
  rules: RulesSaid;
  lessons: Lesson[];
  lecture: LecturePlace[];
  dares: Record<string, DareSaid>;
  own_dares: Record<string, DareSaid>;
  address: Record<string, Written>;
  published?: Published;
}

interface Order {
  policy: string;
  seed: string;
}

interface Values {
  example?: string;
  net?: string;
  program?: string;
  tab?: TabName;
  passes?: number;
  root?: number;
  slow?: [number, number][];
  lazy?: number[];
  node?: number;
  at?: number;
  forest?: number;
  broken?: string;
  predict?: boolean;
  play?: boolean;
  how?: string;
  policy?: string;
  seed?: string;
  other?: Order;
  beside?: boolean;
  steps?: string[];
  without?: string;
  dare?: string;
  plan?: number[];
  kind?: PictureKind;
  lesson?: number;
  step?: number;
  lecture?: number;
}

interface FoundAddress {
  network: Net | null;
  values: Values;
  unread: string;
}

interface FileRead extends Net {
  said: string[];
  unsaid?: undefined;
}

interface Choice {
  stated: string[];
  means: string;
}

interface FileUnsaid {
  unsaid: string;
  choices: Choice[];
  wanted: string[];
  titles: string[];
}

interface DrawingFound {
  labels: string[];
}

interface PlanFound {
  plan: number[];
  allowed: number;
  degree: number;
  bars: number;
  last: number;
  forests: number;
}

interface GoodPlan {
  said: string;
  at: number[];
  greatest: number;
  ok: true;
  code?: undefined;
}

interface BadPlan {
  said: string;
  at: number[];
  code: string;
  sentence: string;
  do: string;
  ok: false;
}

interface WhyFound {
  lines: string[];
  identifiers: number[];
  messages: [number, number, number][];
}

interface Broken {
  here: boolean;
  lines: string[];
  found: Net | null;
  picture: string | null;
}

interface Judged {
  ok: boolean;
  said: string;
  by: string;
  entries: number;
}

interface Replayed extends Judged {
  pulses: number[];
  wires: number;
}

interface JudgedText {
  ok: boolean;
  said: string;
  line: number | null;
  by: string;
  proved: Judged | null;
}

interface RunPart extends RunFound {
  cut: boolean;
}

interface WholeRun extends RunPart {
  text: string;
  judge: Judged;
  same: [number, number, number];
  results: (number | string)[];
  costs: Record<string, number>;
  of: string | null;
}

interface DareJudged {
  won: boolean;
  said: string;
  impossible: string;
}

interface Ran {
  function: string;
  node: number;
}

interface AnySteps {
  made: string[];
  steps: string[];
  wires: [number, number, string[]][];
  said: string;
  fault: string | null;
  over: boolean;
  list: string[];
  entries: number;
  ran?: Ran;
  dare?: DareJudged;
}

interface StepsFound extends AnySteps {
  last: number;
  looks: Look[];
  judge?: Replayed;
  nodes?: undefined;
}

interface Reacted {
  acts: number;
  able: boolean;
  found: string;
  keeps: [string, string][];
}

interface FileSays {
  ok: boolean;
  said: string;
}

interface ReactionsFound extends AnySteps {
  nodes: Reacted[];
  ended: boolean;
  always: FileSays | null;
  right: FileSays | null;
  dares: string[];
}

interface FileText {
  version: string;
  text?: string;
  lines?: Record<string, [number, number]>;
  fault?: string;
}

interface Predicted {
  right: boolean;
  found: string;
  why: string;
}

interface ExerciseJudged {
  done: boolean;
  said: string;
}

interface Build {
  proved: boolean;
  lines: string[];
  ended: boolean;
  quiet?: number;
}

interface OfNetwork {
  network: string;
  name?: string | null;
}

interface OfProgram extends OfNetwork {
  program?: string | null;
}

interface Held {
  slow?: [number, number][] | null;
  lazy?: number[] | null;
}

interface AfterSteps {
  steps?: string | null;
}

interface WithoutRules {
  without?: string | null;
}

interface Seeded {
  seed?: number | string | null;
}

type HelloCall = Record<string, never>;

interface AddressCall {
  place: string;
  nodes?: number | null;
  edges?: [number, number][] | null;
}

interface ExampleCall {
  name: string;
}

interface ReadCall {
  name: string;
  data: string;
  stated?: string[] | null;
}

interface MakeCall {
  kind: string;
  sizes: Record<string, number | string>;
  seed?: number | string | null;
}

interface TidyCall extends OfNetwork {}

interface DrawingCall extends OfNetwork {}

interface PlanCall extends OfNetwork {}

interface CheckCall extends OfNetwork {
  plan: number[];
}

interface RoundsCall extends OfProgram {}

interface RoundsPageCall extends OfProgram {}

interface WhyCall extends OfNetwork {
  node: number;
}

interface BrokenCall extends WithoutRules, OfProgram {}

interface PictureCall extends AfterSteps, OfProgram {
  kind: PictureKind;
  node?: number | null;
  forest?: number | null;
  transcript?: string | null;
  pulses?: number[] | null;
}

interface RunCall extends Seeded, AfterSteps, Held, OfProgram {
  how?: string | null;
  policy?: string | null;
  workers?: number | null;
  capacity?: number | null;
  transcript?: string | null;
}

interface OfTranscript extends OfProgram {
  transcript: string;
}

interface RunPageCall extends OfTranscript {}

interface ReplayCall extends OfTranscript {}

interface JudgeCall extends OfTranscript {}

interface StepsCall extends Seeded, WithoutRules, AfterSteps, Held, OfProgram {
  list?: string | null;
  dare?: string | null;
  by?: number | null;
  in_step?: boolean | null;
}

interface FileCall {
  own: string;
  seen?: string | null;
}

interface PredictCall extends OfProgram {
  forest?: number | null;
  node: number;
  pulse: number;
  guess: number | string;
}

interface WaitsCall extends AfterSteps, WithoutRules, OfProgram {
  node: number;
  guess: number | string;
}

interface SendsCall extends AfterSteps, WithoutRules, OfProgram {
  step: string;
  guess: number | string;
}

interface ExerciseCall extends AfterSteps, WithoutRules, OfProgram {
  lesson: number;
  step: number;
  guess?: number | string | null;
  plan?: number[] | null;
}

type BuildCall = Record<string, never>;

type BuiltCall = Record<string, never>;

interface Asks {
  hello: HelloCall;
  address: AddressCall;
  example: ExampleCall;
  read: ReadCall;
  make: MakeCall;
  tidy: TidyCall;
  drawing: DrawingCall;
  plan: PlanCall;
  check: CheckCall;
  rounds: RoundsCall;
  rounds_page: RoundsPageCall;
  why: WhyCall;
  broken: BrokenCall;
  picture: PictureCall;
  run: RunCall;
  run_page: RunPageCall;
  replay: ReplayCall;
  judge: JudgeCall;
  steps: StepsCall;
  file_text: FileCall;
  predict: PredictCall;
  waits: WaitsCall;
  sends: SendsCall;
  exercise: ExerciseCall;
  build: BuildCall;
  built: BuiltCall;
}
interface Answers {
  hello: Hello;
  address: FoundAddress;
  example: Net;
  read: FileRead | FileUnsaid;
  make: Net;
  tidy: Net;
  drawing: DrawingFound;
  plan: PlanFound;
  check: GoodPlan | BadPlan;
  rounds: RoundsFound;
  rounds_page: string;
  why: WhyFound;
  broken: Broken;
  picture: string;
  run: WholeRun;
  run_page: string;
  replay: Replayed;
  judge: JudgedText;
  steps: StepsFound | ReactionsFound;
  file_text: FileText;
  predict: Predicted;
  waits: Predicted;
  sends: Predicted;
  exercise: ExerciseJudged;
  build: Build;
  built: Build;
}

interface Explained {
  found: string;
  why: string;
}

interface LocalRow {
  to?: number;
  puts?: [number, string][];
  fault?: string;
}

interface OneState {
  look: number;
  waits: number;
  own: LocalRow | null;
  takes: Record<number, LocalRow>;
  same: number[];
}

interface OneNode {
  near: number[];
  puts: [number, string][];
  wires: [number, string][];
  states: OneState[];
}

interface DareGoal {
  pairs: [number, number][];
  least: number;
  said: string;
  impossible: string;
}

interface AllRuns {
  last: number;
  overtakes: boolean;
  nodes: OneNode[];
  looks: Look[];
  waits: Explained[];
  over: Explained;
  dares: Record<string, DareGoal>;
  results: (number | string)[];
  ends: [DareJudged, DareJudged, DareJudged];
}

interface EndSaid {
  right: FileSays | null;
  dares: Record<string, DareJudged>;
}

interface AllReactions {
  overtakes: boolean;
  nodes: OneNode[];
  looks: Reacted[];
  always: Record<string, string> | null;
  ends: Record<string, EndSaid>;
  dares: string[];
  kept: string;
  refused: string;
  fault: string;
  no_end: DareJudged;
}

interface AllVerdicts {
  of: Record<number, BadPlan>[];
  above: BadPlan[];
  most: number;
  blank: BadPlan[];
  alike: [number, number, BadPlan][];
  good: GoodPlan[];
}

interface GuessJudged {
  right: string;
  done: ExerciseJudged;
  other: ExerciseJudged;
  none: ExerciseJudged;
}

interface StepsJudged {
  dare: string;
  enough: number | null;
  more: string;
  before: ExerciseJudged | null;
  after: ExerciseJudged | null;
}

interface ReactionsJudged {
  results: Record<number, string>;
  lacks: Record<number, string>;
  unfinished: string;
  done: string;
  kept: string;
}

interface PlanJudged {
  proper: string[];
  blank: string[];
}

interface Kept {
  answer?: unknown;
  wrong?: string;
}

interface Piece {
  answers: Record<string, number>;
  values: Kept[];
  runs: Record<string, AllRuns>;
  reactions: Record<string, AllReactions>;
  verdicts: Record<string, AllVerdicts>;
  questions: Record<string, Explained>;
  guesses: Record<string, GuessJudged>;
  steps: Record<string, StepsJudged>;
  reacted: Record<string, ReactionsJudged>;
  plans: Record<string, PlanJudged>;
}
