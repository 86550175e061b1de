"""Compares the order call with the second program: code, number and the whole buffer, as the program `orders` tells them."""

from built import lines_of, program
from differences import Compared
from order_cases import bytes_of, is_taken, line_of


def compare(vectors):
    compared = Compared()
    taken = [vector for vector in vectors if is_taken(vector)]
    data = b"".join(map(bytes_of, taken))
    end, printed = lines_of([program("orders")], data)
    compared.judge("orders", {"end": end, "lines": len(printed)}, {
        "end": "ended well", "lines": len(taken)}, {"cases": data})
    for vector, line in zip(taken, printed):
        compared.judge(vector.name, {"line": line}, {"line": line_of(vector)}, {"log": vector.log})
        compared.counts["order calls"] += 1
    return compared
