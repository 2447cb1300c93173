'use strict';
/* What the map's shades can show: the depth, the highest water of a trial so far, or how long each square was wet. All are chosen from the frames
   that stand; nothing is worked between two of them. */

/* from so many µm a square is wet */
const WET = 10000;
/* the least time of each class, in ms, with the shades of the depths */
const TIMES = [
  [60000, '1 to 5 min'], [300000, '5 to 15 min'], [900000, '15 to 30 min'],
  [1800000, '30 min to 1 h'], [3600000, '1 to 3 h'], [10800000, '3 h and more'],
];

/* highest depth, its clock and the time wet of each square, over a trial's frames up to one; kept, since the film asks for the next each time */
function courseOf(trial, upTo) {
  if (!trial.course || trial.course.at > upTo) {
    const first = trial.frames[0], count = first.depths.length;
    trial.course = { at: 0, highest: first.depths.slice(), when: new Float64Array(count).fill(first.clock), wet: new Float64Array(count) };
  }
  const course = trial.course;
  while (course.at < upTo) {
    const frame = trial.frames[++course.at], lasted = frame.clock - trial.frames[course.at - 1].clock;
    frame.depths.forEach((depth, square) => {
      if (depth > course.highest[square]) {
        course.highest[square] = depth;
        course.when[square] = frame.clock;
      }
      if (depth >= WET) course.wet[square] += lasted;
    });
  }
  return course;
}

const spanText = (trial, frame) => `from ${shortClock(trial.frames[0].clock)} to ${shortClock(frame.clock)}`;

const LAYERS = {
  depth: {
    title: 'Depth of water',
    values: (trial, frame) => frame.depths,
    classes: () => desk.ground.classes,
    none: 'dry ground',
    film: () => desk.ground.film,
    caption: () => '',
  },
  highest: {
    title: 'Highest of this trial',
    values: (trial, frame) => trial ? courseOf(trial, trial.frames.indexOf(frame)).highest : frame.depths,
    classes: () => desk.ground.classes,
    none: 'dry all the time',
    film: () => desk.ground.film,
    caption: (trial, frame) => `highest water of this trial ${spanText(trial, frame)}, not what stands now`,
  },
  wet: {
    title: 'Time 1 cm deep or deeper',
    values: (trial, frame) => closedAs(frame, trial ? courseOf(trial, trial.frames.indexOf(frame)).wet : new Float64Array(frame.depths.length)),
    classes: () => TIMES.map(([least, name], at) => [least, desk.ground.classes[at][1], name]),
    none: 'never',
    film: () => 'under 1 min',
    caption: (trial, frame) => `time 1 cm deep or deeper, ${spanText(trial, frame)}`,
  },
};
const LAYER_NAMES = Object.keys(LAYERS);
const layerNow = () => LAYERS[desk.layer];

/* a closed square has no value in any layer */
const closedAs = (frame, values) => values.map((value, square) => frame.depths[square] < 0 ? -1 : value);

function classAt(classes, value) {
  let at = -1;
  classes.forEach(([least], place) => { if (value >= least) at = place; });
  return at;
}

/* steps of a trial, up to the one in view, that were as short as may be while the water asks for shorter ones */
function heldSteps(trial, upTo) {
  const { shortest, longest } = desk.ground.run;
  return shortest < longest ? trial.frames.slice(1, upTo + 1).filter(frame => frame.length === shortest).length : 0;
}

/* a square in words: its depth, and where it is dry now how high the water came */
function squareText(trial, frame, square) {
  const depth = frame.depths[square];
  if (depth < 0) return 'closed: no water enters';
  const said = depth > 0 ? `${depthText(depth)} (${group(depth)} µm)` : 'dry';
  if (!trial) return said;
  const course = courseOf(trial, trial.frames.indexOf(frame));
  if (course.highest[square] <= depth) return said;
  const highest = `highest ${depthText(course.highest[square])} at ${shortClock(course.when[square])}`;
  return depth > 0 ? `${said}; ${highest}` : `dry now; ${highest}`;
}
