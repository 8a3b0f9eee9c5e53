"""Two tellers on threads each add 10 to one balance, 100 times: python3 tellers.py

No deposit is lost.
"""
from folugben import Storage, check


def deposit(step):
    step.put("balance", step["balance"] + 10)


with Storage({"balance": 0}, 1000, record=True) as storage:
    moves = storage.run(deposit, workers=2, times=100)  # on two threads; begins again on a conflict
    balance = storage["balance"]
    check(storage.close_journal())                      # raises if a recorded answer is wrong
    print(f"{moves} moves, balance {balance}")
