"""The answer to a text by document 02, No. 6, from two sources that are not ours: a parser written from the request's sentences, over Python's integers, and Python's own parser."""
import ast
import re
import sys

sys.setrecursionlimit(100_000)
sys.set_int_max_str_digits(0)

NO_TEXT, TOO_DEEP, OUTSIDE = 'refused 16', 'refused 17', 'refused 18'


class NoText(Exception):
    pass


class Outside(Exception):
    pass


class Paper:
    """The request, a sentence at a time. `broken` has the same with one sentence wrong."""
    most_deep = 16
    signs = b'-'

    def answer(self, text):
        """The line for a text."""
        try:
            tree = self.read(text)
        except NoText:
            return NO_TEXT
        if self.depth(tree) > self.most_deep:
            return TOO_DEEP
        try:
            return str(self.value(tree))
        except Outside:
            return OUTSIDE

    # 'a sum is made of products, a product of factors, and a factor may hold a bracketed sum, or is digits, or a minus and a factor'
    def read(self, text):
        self.text, self.at = text, 0
        tree = self.sum()
        if self.at != len(text):
            raise NoText
        return tree

    def meets(self, some):
        return self.at < len(self.text) and self.text[self.at] in some

    def passed(self):
        self.at += 1
        return chr(self.text[self.at - 1])

    # 'equals from the left'
    def chain(self, signs, part):
        tree = part()
        while self.meets(signs):
            tree = (self.passed(), tree, part())
        return tree

    def sum(self):
        return self.chain(b'+-', self.product)

    def product(self):
        return self.chain(b'*/', self.factor)

    def factor(self):
        if self.meets(self.signs):
            self.passed()
            return 'minus', self.factor()
        if self.meets(b'('):
            self.passed()
            inner = self.sum()
            if not self.meets(b')'):
                raise NoText
            self.passed()
            return 'bracket', inner
        return 'digits', self.digits()

    def digits(self):
        start = self.at
        while self.meets(b'0123456789'):
            self.passed()
        if self.at == start:
            raise NoText
        return int(self.text[start:self.at])

    # 'at most 16 brackets deep'
    def depth(self, tree):
        kind, *parts = tree
        if kind == 'digits':
            return 0
        return max(map(self.depth, parts)) + (kind == 'bracket')

    # 'Every intermediate value is an i32'
    def kept(self, value):
        if not -2**31 <= value < 2**31:
            raise Outside
        return value

    def value(self, tree):
        kind, *parts = tree
        if kind == 'digits':
            return self.kept(parts[0])
        if kind == 'minus':
            return self.negated(parts[0])
        if kind == 'bracket':
            return self.value(parts[0])
        left, right = map(self.value, parts)
        if kind == '+':
            return self.kept(left + right)
        if kind == '-':
            return self.kept(left - right)
        if kind == '*':
            return self.kept(left * right)
        return self.kept(self.quotient(left, right))

    # 'a unary minus directly before a number is taken with it'
    def negated(self, factor):
        return self.kept(-(factor[1] if factor[0] == 'digits' else self.value(factor)))

    # 'Division cuts toward zero', 'a zero divisor'
    def quotient(self, left, right):
        if right == 0:
            raise Outside
        size = abs(left) // abs(right)
        return size if (left < 0) == (right < 0) else -size


def nesting(text):
    """The most brackets open at once."""
    open_now = most = 0
    for byte in text:
        open_now += (byte == ord('(')) - (byte == ord(')'))
        most = max(most, open_now)
    return most


def exact(node):
    """A tree of Python's as an integer, and whether 2,147,483,648 comes up on the way, without its sign: only there the minus of a number matters."""
    if isinstance(node, ast.Constant):
        value, edge = node.value, False
    elif isinstance(node, ast.UnaryOp):
        value, edge = exact(node.operand)
        value = -value
    else:
        (left, one), (right, other) = exact(node.left), exact(node.right)
        edge = one or other
        if isinstance(node.op, ast.Div):
            if right == 0:
                raise Outside
            value = left // right if left * right >= 0 else -(-left // right)
        else:
            value = left + right if isinstance(node.op, ast.Add) else left - right if isinstance(node.op, ast.Sub) else left * right
    if abs(value) > 2**31:
        raise Outside
    return value, edge or abs(value) == 2**31


def is_sum(node):
    if isinstance(node, ast.Constant):
        return type(node.value) is int
    if isinstance(node, ast.UnaryOp):
        return isinstance(node.op, ast.USub) and is_sum(node.operand)
    return isinstance(node, ast.BinOp) and isinstance(node.op, (ast.Add, ast.Sub, ast.Mult, ast.Div)) and is_sum(node.left) and is_sum(node.right)


def opinion(text):
    """The same line by Python's parser; None where it has no opinion. Python also has **, //, a unary plus and calls, and takes no leading zeros."""
    if not re.fullmatch(rb'[0-9+*/()-]+', text) or b'**' in text or b'//' in text:
        return NO_TEXT
    # its parser has limits of its own
    if len(text) > 1000 or nesting(text) > 60 or b'-' * 60 in text:
        return None
    try:
        tree = ast.parse(re.sub(rb'(?<![0-9])0+(?=[0-9])', b'', text), mode='eval').body
    except SyntaxError:
        return NO_TEXT
    if not is_sum(tree):
        return NO_TEXT
    if nesting(text) > 16:
        return TOO_DEEP
    try:
        value, edge = exact(tree)
    except Outside:
        return OUTSIDE
    return None if edge else str(value)
