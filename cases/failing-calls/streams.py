"""Where messages and answers end in a stream of bytes."""
import re

MESSAGE = re.compile(rb"[A-Z]+ \S+ HTTP/1\.1\r\n(?:[\w-]+: .*\r\n)*?(?:content-length: (\d+)\r\n)?\r\n")
ANSWER = re.compile(rb"HTTP/1\.1 .*\r\n.*\r\ncontent-length: (\d+)\r\n\r\n")


def ends_of(data, form):
    """Where each message or answer ends."""
    ends, at = [], 0
    while (head := form.match(data, at)) and (at := head.end() + int(head[1] or 0)) <= len(data):
        ends.append(at)
    return ends


def parts_of(data, form):
    """The messages or answers."""
    ends = ends_of(data, form)
    return [data[begin:end] for begin, end in zip([0] + ends, ends)]
