"""Orders to builders."""
from asked import rows_at_once
from told import line


def a_copy_of_an_order_is_of_its_package():
    return rows_at_once("ask_disk", [(line("order", "app", "tool-1"), "app/tool-1")])


TESTS = [a_copy_of_an_order_is_of_its_package]
