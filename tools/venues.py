"""A venue that answers orders, and the orders and the reports of their schema, for the trials beside this file."""
import os, struct

from session_ends import SESSION, End

ACCEPTED, FILLED, EXPIRED, REJECTED = 1, 2, 3, 4
BUY, SELL = 1, 2


class Order:
    """An order as it is sent; one without a side is a Cancel, one without an identifier is no order."""

    def __init__(self, cl_id=None, side=None, symbol=b"", quantity=0, price=0, orig=0):
        self.cl_id, self.side, self.symbol, self.quantity, self.price, self.orig = cl_id, side, symbol, quantity, price, orig

    def payload(self):
        if self.cl_id is None:
            return b"\xeb\x50" + struct.pack("<4H", 0, 9, 100, 1)
        if self.side is None:
            return b"\xeb\x50" + struct.pack("<4H2Q", 16, 2, 100, 1, self.cl_id, self.orig)
        return b"\xeb\x50" + struct.pack("<4HQB8sIq2H", 29, 1, 100, 1, self.cl_id, self.side, self.symbol, self.quantity, self.price, 5, 0)

    def code(self):
        """Why a NewOrder is refused by itself, or 0."""
        return 1 if not 1 <= self.quantity <= 1000000 else 2 if self.price <= 0 else 5 if self.side not in (BUY, SELL) else 0


def report(version, desk, cl_id, kind, code=0, quantity=0, price=0):
    return (b"\xeb\x50" + struct.pack("<4HQ3BIq", 23, 3, 100, version, cl_id, kind, code, desk, quantity, price)).hex()


class Venue(End):
    """An end that answers by its desks or its book, whose keys of CONFIG these are; INPUT is not there."""

    def __init__(self, folder, port, senders, keys):
        super().__init__(folder, "accept", port, senders=senders)
        with open(self.at("config.toml"), "w") as f:
            f.write(f'session = "{SESSION}"\nkeepalive = 1000\nclient_flow = "recoverable"\nserver_flow = "recoverable"\n{keys}')
        os.remove(self.at("plans.txt"))


def broker(folder, port, orders):
    """The end that sends these orders."""
    end = End(folder, "connect", port, senders=1)
    with open(end.at("plans.txt"), "w") as f:
        f.writelines(f"1 {order.payload().hex()}\n" for order in orders)
    return end
