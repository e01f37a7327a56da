"""What follows the code of a file, one instruction after the other, with all machines that an instruction leads to."""

from typing import Any, Callable

import functions
import terms as T
from machine import SECRET, UnknownStackAlignment
from program import OF_C, Program
from terms import CannotShow, IsWrong


class CodeWalker:
    """Follows calls through a file. A subclass says what becomes of functions that are not of the C library."""

    may_trap = False
    follow_answer_branch: Callable     # what follows a branch by which a comparison returns, as follow_instruction()
    call_compression: Callable                 # the machines after a call of a function that compresses
    call_inner_function: Callable                # those after a call of another function
    comparing: tuple                   # the ends of the names of the functions that compare

    def __init__(self, program: Program, exported: str = "") -> None:
        self.program, self.exported, self.scrubs = program, exported, functions.stack_scrub_functions(program)
        self.cpu: Any = program.model.Model    # what executes instructions over values
        self.listed = {functions.name_in_file(program.path, entry[0]): entry for entry in functions.FILES[program.path]}
        self.at: Any = None            # the instruction that is executed

    def current_instruction_text(self) -> str:
        return " ".join(self.at.text.split()) if self.at else "the entry"

    def for_each_stack_alignment(self, title: Callable, show: Callable) -> list:
        """What show() returns for each alignment of the stack at the entry that matters. A refusal gets a title."""
        waiting, found = [(16, self.cpu.BACK)], []
        while waiting:
            size, rest = waiting.pop()
            try:
                found.append(show((size, rest)))
            except UnknownStackAlignment as e:
                waiting += [(e.need, k) for k in range(rest, e.need, size)]
            except T.ClaimNotShown as e:
                raise type(e)("%s: at %s: %s" % (title(), self.current_instruction_text(), e))
        return found

    def follow_instruction(self, name: str, m: Any, i: Any, code: dict, entry: Any) -> list:
        """Executes an instruction of a function. Returns the machines after it, each with the address of the next one,
        or None after a return. A jump out of the code is a call in place of a return."""
        self.at, cpu = i, self.cpu(m)
        if i.is_trap:
            if not self.may_trap:
                raise IsWrong("a trap is reached")
            return []                  # the program stops
        if i.is_call:
            link = cpu.begin_call()
            after = self.states_after_call(m, i)
            for n in after:
                self.cpu(n).end_call(link)
                n.forget_stack_below_pointer()
            return [(n, i.next) for n in after]
        is_answer = i.target is not None and not i.is_jump and m.flags.kind == SECRET and (
            name.endswith(self.comparing) and all(
                cpu.only_sets_result_and_returns(code, pc) for pc in (i.target, i.next)))
        found: list = []
        for n, pc in self.follow_answer_branch(m, i) if is_answer else cpu.execute_instruction(i):
            if pc in code or i.target is None and pc is not None:
                found.append((n, pc))
                continue
            ends = [n]
            if pc is not None:
                self.check_function_return(n, entry, name)
                ends = self.states_after_call(n, i)
            for end in ends:
                self.check_function_return(end, entry, name, int(pc is not None))
                end.forget_stack_below_pointer()
                found.append((end, None))
        return found

    def check_function_return(self, m: Any, entry: Any, name: str, first: int = 0) -> None:
        """What a return must find. The return address is the first of it."""
        if entry is None:
            raise CannotShow("%s returns in a loop" % name)
        self.cpu(m).check_return(entry, first)

    def states_after_call(self, m: Any, i: Any) -> list:
        """The machines after a call of another function, whose return address is in its place."""
        name, cpu = self.program.called_function_name(i, OF_C), self.cpu(m)
        if name not in OF_C:
            return (self.call_compression if name in self.listed else self.call_inner_function)(m, name)
        to, source, length = (cpu.argument(k) for k in range(3))
        read = T.split(source)[:1] if name == "memset" else m.copy_memory(to, source, length, name == "memcpy")
        if name == "memset":
            m.fill_memory(to, read[0], length)
        cpu.clobber_registers(m.leftover_kind(read))
        cpu.set_result_bytes(T.split(to))
        return [m]
