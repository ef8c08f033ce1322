
/* ================================================================ state of the page */

let run = null;
let here = 0;
let pinned = null;
let isFuture = false;
let isPredict = false;
let guess = null;
const told = { right: 0, asked: 0, answers: new Map() };
