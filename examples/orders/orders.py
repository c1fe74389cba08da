#!/usr/bin/env python3
"""An order system whose rules keep what an application would otherwise have to.

    orders.py [PORT [TENANT]]        on a server of this machine, with a tenant that has nothing yet

- The stock of an item is what its moves come to: a rule adds them up, so no program can forget to.
- An order's total follows its lines. A line has the price at which it was ordered.
- Who deletes an order deletes its lines, and each line gives its amount back to the stock.
- No stock is below zero at the end of a transaction; in the middle of one it may be.
- Each change of a price is written down: what it was before the transaction, and what it is behind it.
- The ruleset `checks` can be looked at in the middle of a transaction.
"""

import pathlib
import sys

sys.path.insert(0, str(pathlib.Path(__file__).resolve().parents[2] / "clients" / "python"))

import filgwesha

SCHEMA = (
    "create table item (id int, name text, price int, stock int)",
    "create table move (item int, amount int)",
    "create table orders (number int, customer text, total int)",
    "create table line (order_number int, item int, amount int, price int)",
    "create table price_log (item int, was int, became int)",
    """create rule take on line when inserted
       then insert into move select item, 0 - amount from inserted""",
    """create rule give_back on line when deleted
       then insert into move select item, amount from deleted""",
    """create rule add_up on move when inserted
       then update item set stock = (select sum(m.amount) from move m where m.item = item.id)
       where id in (select item from inserted)""",
    """create rule totals on line when inserted, deleted, updated
       then update orders set total = (select sum(l.amount * l.price) from line l where l.order_number = orders.number)""",
    """create rule lines_go on orders when deleted
       then delete from line where order_number in (select number from deleted)""",
    """create rule enough on item when inserted, updated(stock)
       if select * from item where stock < 0 then rollback follows add_up""",
    """create rule prices on item when updated(price)
       then insert into price_log select o.id, o.price, n.price
       from old-updated o, new-updated n where o.id = n.id""",
    "create ruleset checks",
    "alter ruleset checks addrules take, add_up, enough",
)


def define(connection):
    cursor = connection.cursor()
    for command in SCHEMA:
        cursor.execute(command)


@filgwesha.retry_locked(10)
def deliver(connection, item, amount):
    connection.cursor().execute("insert into move values (?, ?)", (item, amount))


@filgwesha.retry_locked(10)
def order(connection, number, customer, lines):
    """Orders some items. Raises IntegrityError where there are too few of one."""
    cursor = connection.cursor()
    cursor.execute("insert into orders values (?, ?, 0)", (number, customer))
    cursor.executemany(
        "insert into line select ?, id, ?, price from item where id = ?",
        [(number, amount, item) for item, amount in lines],
    )


@filgwesha.retry_locked(10)
def cancel(connection, number):
    connection.cursor().execute("delete from orders where number = ?", (number,))


@filgwesha.retry_locked(10)
def fold_moves(connection):
    """One move for each item, which is its stock, in place of all that there were: to the rules no stock has changed."""
    cursor = connection.cursor()
    cursor.execute("delete from move")
    cursor.execute("insert into move select id, stock from item")


def show(connection, what, query, parameters=()):
    with connection:
        print(f"{what}:", *connection.cursor().execute(query, parameters))


def main(port=7411, tenant=0):
    connection = filgwesha.connect("127.0.0.1", port, tenant)
    define(connection)
    with connection:
        connection.cursor().executemany("insert into item values (?, ?, ?, 0)", [(1, "a cup", 4), (2, "a cook's knife", 30)])
    deliver(connection, 1, 10)
    deliver(connection, 2, 2)
    show(connection, "stock", "select name, stock from item")

    order(connection, 100, "ann", [(1, 4), (2, 1)])
    print("considered:", connection.considered)
    show(connection, "order 100", "select customer, total from orders where number = ?", (100,))

    try:
        order(connection, 101, "bob", [(1, 1), (2, 3)])
    except filgwesha.IntegrityError as error:
        print(f"{error}: {error.considered}")
    show(connection, "stock", "select name, stock from item")

    # two updates are one change, and there and back again is none: the rule sees what the transaction comes to
    with connection:
        cursor = connection.cursor()
        cursor.execute("update item set price = 5 where id = 1")
        cursor.execute("update item set price = 6 where id = 1")
        cursor.execute("update item set price = 31 where id = 2")
        cursor.execute("update item set price = 30 where id = 2")
    show(connection, "prices", "select * from price_log")

    # some of the rules in the middle of the transaction, the others at its end
    cursor = connection.cursor()
    cursor.execute("insert into orders values (102, 'cy', 0)")
    cursor.execute("insert into line select 102, id, 3, price from item where id = 1")
    print("checks:", connection.process_ruleset("checks"))
    connection.commit()

    cancel(connection, 100)
    print("considered:", connection.considered)
    show(connection, "orders", "select * from orders")
    show(connection, "lines", "select * from line")
    show(connection, "stock", "select name, stock from item")

    fold_moves(connection)
    show(connection, "moves", "select * from move")
    show(connection, "stock", "select name, stock from item")
    connection.close()


if __name__ == "__main__":
    main(*map(int, sys.argv[1:]))
