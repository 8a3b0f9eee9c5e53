"""A bank: an account that needs money collects it from others, in one step.

It collects from one account after the other.
"""
from folugben import Agent, Location

from .rules import Choose, If, Iterate, Let, Par, Program, Seq, Update

CUSTOMERS, OPENING, NEED, TIMES = 8, 100, 150, 10
INIT = {("account", own): OPENING for own in range(CUSTOMERS)}


def customer(own: int) -> Program:
    account, due = ("account", own), Location(("due", own))
    collect = Let(lambda see: see(due), lambda missing: If(missing > 0, Choose(
        "account", lambda at, money: at != account and money > 0,
        lambda at, money: Par(Update(at, max(money - missing, 0)), Update(due, max(missing - money, 0))),
    )))
    rule = Seq(
        Update(due, NEED),
        Iterate(collect),
        Par(Update(account, lambda see: see(account) + NEED - see(due)), Update(due, None)),
    )
    return rule, lambda agent: agent.won == TIMES


PROGRAMS = [customer(own) for own in range(CUSTOMERS)]


def holds(agent: Agent) -> bool:
    """the sum of the accounts stays"""
    return bool(sum(money for _, money in agent.scan("account")[1]) == CUSTOMERS * OPENING)
