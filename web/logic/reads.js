// The input of a debugged program, line by line. A read is identified by the number of instructions executed before it, because each call of IO.in_int or
// IO.in_string takes one line. Therefore it is known before a read whether its line was given.
"use strict";

const READERS = ["IO.in_int", "IO.in_string"];
const readersOf = ({ labels }) => READERS.map((it) => labels.get(it));

// The reads of a run, in order.
class Reads {
    reads = [];

    // Records a read, and returns its number, from 0.
    numberAt(steps) {
        if (!(steps <= this.reads.at(-1))) this.reads.push(steps);
        return this.reads.indexOf(steps);
    }
}
