"""The named texts of the tables in crates/cli_tests/src, for the scripts beside this one."""
import os
import re

TOP = os.path.dirname(os.path.dirname(os.path.abspath(__file__)))


def named_texts(table="texts.rt"):
    """Each text by its name, with the texts that it names in place of their names, and a byte in place of each escape."""
    with open(os.path.join(TOP, "crates/cli_tests/src", table)) as file:
        table = re.search(r'r#"(.*)"#;', file.read(), re.S).group(1)
    texts = {}
    for line in table.splitlines():
        if line and not line.startswith("#"):
            name, text = line.split(" =", 1)
            for other, value in texts.items():
                text = text.replace(other, value)
            texts[name] = text.lstrip()
    escaped = lambda text: re.sub(rb"\\([0-9a-f]{2})", lambda found: bytes([int(found.group(1), 16)]), text)
    return {name.strip("<>"): escaped(text.encode()) for name, text in texts.items()}
