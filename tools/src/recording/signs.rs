//! The signs of both charts, in the order of their legends: what each says, in document 01's words where it has them.

pub const SIGNS: [&str; 10] = [
    "a release starts a job before the tick",
    "a release waits: the job is unfinished",
    "a release that waited starts its job",
    "a release is dropped: four wait already",
    "the job is unfinished, a higher task runs",
    "Commit turns status 0 into 2: yes",
    "Commit finds status 1: no",
    "an attempt is lost: the transaction restarts",
    "the job ends",
    "a current value changes",
];
