"""A railroad crossing: a train near it waits until the keeper has closed the gate."""
from folugben import Agent

from .rules import Choose, If, Let, Program, Update

TRAINS, PASSES, GATE = 3, 20, ("gate",)
INIT = {GATE: "open"} | {("train", own): "away" for own in range(TRAINS)}


def train(own: int) -> Program:
    place = ("train", own)
    enter = If(lambda see: see(GATE) == "closed", Update(place, "crossing"))
    turns = {"away": Update(place, "near"), "near": enter, "crossing": Update(place, "away")}
    return Let(lambda see: see(place), turns.__getitem__), lambda agent: agent.won == 3 * PASSES


def keeper() -> Program:
    close = If(lambda see: see(GATE) == "open", Update(GATE, "closed"))
    open_ = If(lambda see: see(GATE) == "closed", Update(GATE, "open"))
    rule = Choose("train", lambda _, place: place != "away", lambda *_: close, otherwise=open_)
    return rule, lambda agent: agent.seen == agent.won + TRAINS * 3 * PASSES


PROGRAMS = [keeper(), *map(train, range(TRAINS))]


def holds(agent: Agent) -> bool:
    """no train crosses while the gate is open"""
    (gate,), trains = agent.peek([GATE])[1], agent.scan("train")[1]
    return gate == "closed" or all(place != "crossing" for _, place in trains)
