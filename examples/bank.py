#!/usr/bin/env python3
"""A bank in a folder of its own: accounts, transfers, the past, and a notary. `python3 examples/bank.py` runs it."""
import os
import sys
import tempfile
from pathlib import Path

TOP = Path(__file__).resolve().parents[1]
sys.path.insert(0, str(TOP / "python" / "src"))
os.environ.setdefault("DRAGOON", str(TOP / "dragoon"))
import dragoon

ACCOUNTS = {"id": int, "owner": str, "cents": int}


def transfer(session, source, target, cents):
    """Either both accounts change, or neither."""
    giver, taker = session.get("account", source), session.get("account", target)
    if giver.cents < cents:
        raise ValueError(f"{giver.owner} has only {giver.cents} cents")
    session.update("account", source, giver.owner, giver.cents - cents)
    session.update("account", target, taker.owner, taker.cents + cents)


with tempfile.TemporaryDirectory() as folder:
    store, book = f"{folder}/bank.store", f"{folder}/bank.book"
    dragoon.make(store, 7)
    with dragoon.connect(store=store, notary=book, scripted=True) as bank:
        bank.create("account", ACCOUNTS)
        bank.insert_many("account", [(1, "Ada", 1_000), (2, "Grace", 250)])
        bank.now(60)
        bank.transact(lambda session: transfer(session, 1, 2, 300))
        print("now       ", *bank.scan("account"))
        print("at first  ", *bank.scan("account", as_of=0))
        print("Ada's     ", *bank.history("account", 1))
        try:
            bank.transact(lambda session: transfer(session, 2, 1, 9_999))
        except ValueError as why:
            print("refused   ", why)
        bank.now(480)
        print("filed     ", bank.notarize(), "tile")
        print("validated ", bank.validate())
