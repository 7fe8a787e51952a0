// Which exercises of the lessons are done: each browser keeps its own.
import {keep, keptList} from "./kept.js";

const NAME = "studio-ticks";
/** @type {Set<string>} */
const done = new Set(keptList(NAME));

/** @param {number} lesson @param {string} exercise */
function nameOf(lesson, exercise) { return `${lesson}.${exercise}`; }
/** @param {number} lesson @param {Exercise | null} exercise */
export function isDone(lesson, exercise) { return exercise !== null && done.has(nameOf(lesson, exercise.name)); }
// Ticks an exercise off. What another window has ticked in the meantime stays.
/** @param {number} lesson @param {Exercise} exercise */
export function tick(lesson, exercise) {
  keptList(NAME).forEach(one => done.add(one));
  done.add(nameOf(lesson, exercise.name));
  keep(NAME, JSON.stringify(Array.from(done)));
}
// How many exercises a lesson has, and how many of them are done.
/** @param {Lesson} lesson @returns {[number, number]} */
export function countOf({number, steps}) {
  const exercises = steps.map(step => step.exercise).filter(Boolean);
  return [exercises.length, exercises.filter(exercise => isDone(number, exercise)).length];
}
