#!/usr/bin/env python3
"""Tries how a map of rust/src/hash_map.rs grows, and how sections read it meanwhile, over all
interleavings and store buffers: urcu/tests/model.py says how, and what the marks of a step mean.

Use: bindings/model/growth.py

The engine is taken at its word: what is deferred is dropped once each section has ended that was
open then. A section has a number, and 0 stands for none.
"""
import os
import sys

HERE = os.path.dirname(os.path.realpath(__file__))
sys.path[:0] = [f"{HERE}/../urcu/tests", HERE]
sys.dont_write_bytecode = True
from model import try_all

# A map of one key, in place 0 of table 0 and of table 1. It has pair 1, and then pair 2. A table and
# a pair are there as long as their words `row` and `pair` are 1.
MAP = {"section": 0, "table": 0, "place0": 1, "place1": 0, "whole2": 0, "row0": 1, "row1": 1,
       "pair1": 1, "pair2": 1}
# A section looks for the key, and keeps what it finds.
LOOKS = """
    told section = ME
    t = table                         | self.at.load(Acquire)
    p = place.t                       | self.pair.load(Acquire).as_ref()
    must p: a key that stays is missed
    if p is 1 goto readME
    w = whole2
    must w: a pair is read before it is whole
readME:
    r = row.t
    must r: a table was dropped that a section reads
    r = pair.p
    must r: a pair was dropped that a section reads
    told section = 0
"""
# The map grows, the pair is replaced in the larger table, and both are dropped.
GROWS = """
    place1 = 1 %                      | place.pair.store(Arc::into_raw(pair).cast_mut(), Release)
    o = swap table 1 %                | self.table.exchange(table)
    s = section !                     | self.defer(out.table);
    whole2 = 1 %                      | Arc::new(Pair { key, value, number })
    p = swap place1 2 %               | self.places[at].pair.swap(new, AcqRel)
    n = section !                     | self.defer(out.pair);
table:
    unless s goto pair
    now = section
    if now is s goto table
pair:
    told row0 = 0
more:
    unless n goto over
    now = section
    if now is n goto more
over:
    told pair1 = 0
"""
# In a row of places the key of hash 2 stays in place 1. A look for it comes by place 0.
ROW = {"hash0": 1, "pair0": 1, "hash1": 2, "pair1": 2, "hash2": 4, "pair2": 4, "hash3": 0}
GOES_ALONG = """
    h = hash0                         | place.hash.load(Acquire)
    must h: a look ends before a key that stays
    if h is 2 goto found
    h = hash1
    must h: a look ends before a key that stays
found:
    p = pair1
    must p: a key that stays is missed
"""
# The pair of place 0 is taken out, and another one put in; that of place 2 is taken out.
COMES_AND_GOES = """
    o = swap pair0 0                  | self.places[at].pair.swap(null_mut(), AcqRel)
    u = hash1 !                       | if self.places[(last + 1) % length].is_used() {
    if u goto kept
    hash0 = 0                         | it.hash.store(0, Release)
kept:
    hash0 = 3                         | place.hash.store(hash.get(), Release)
    pair0 = 3                         | place.pair.store(Arc::into_raw(pair).cast_mut(), Release)
    o = swap pair2 0
    u = hash3
    if u goto over
    hash2 = 0
    u = pair1 !                       | it.is_used() && !it.is_taken()
    if u goto over
    hash1 = 0
over:
"""
# A key is taken out of place 0, and comes again to place 1. It is the second that came.
AGAIN = {"came": 1, "place0": 1, "place1": 0}
COMES_AGAIN = """
    o = swap place0 0                 | self.places[at].pair.swap(null_mut(), AcqRel)
    came = 2                          | self.came.store(number, Release)
    place1 = 2                        | own.table.insert(hash, pair)
"""
ITERATES = """
    c = came %                        | let came = self.came.load(Acquire);
    a = place0                        | self.view(guard).up_to(came)
    b = place1
    unless a goto over
    unless b goto over
    if c is 1 goto over               | it.number <= last
    must no: an iteration yields a key twice
over:
"""
# Two updaters: one lets the map grow, one replaces the pair of its key. Who is last looks.
LAST = """
    told doneME = 1
    d = doneOTHER
    unless d goto over
    t = table
    p = place.t
    if p is 2 goto over
    must no: an update is lost
over:
"""
TWO = {"table": 0, "place0": 1, "place1": 0, "done1": 0, "done2": 0}
GROWS_UNDER_LOCK = """
    lock !                            | self.updates.lock()
    p = place0                        | let pair = place.pair.load(Relaxed);
    place1 = p                        | new.insert(hash, unsafe { Arc::from_raw(pair) });
    o = swap table 1                  | self.table.exchange(table)
    unlock
""" + LAST.replace("ME", "1").replace("OTHER", "2")
REPLACES_UNDER_LOCK = """
    lock !                            | self.put_under(&mut self.lock(), (hash, pair), is_wanted)
    t = table
    o = swap place.t 2                | own.table.replace(at, pair)
    unlock
""" + LAST.replace("ME", "2").replace("OTHER", "1")

PROTOCOLS = {
    "a section in a map that grows":
        (MAP, [LOOKS.replace("ME", "1") + LOOKS.replace("ME", "2"), GROWS]),
    "a look along places": (ROW, [GOES_ALONG, COMES_AND_GOES]),
    "an iteration": (AGAIN, [ITERATES, COMES_AGAIN]),
    "two updaters": (TWO, [GROWS_UNDER_LOCK, REPLACES_UNDER_LOCK]),
}

if __name__ == "__main__":
    sys.exit(try_all(PROTOCOLS, [f"{HERE}/../rust/src/{it}.rs"
                                 for it in ("hash_map", "pairs", "shared")]))
