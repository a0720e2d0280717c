"""Shared. Wrong programs, made of the stand-in, which the torture test must catch. `python3 tests/serve/wrong_programs.py NAME serve [--create] LOG` runs one."""
from __future__ import annotations
import os, shlex, sys

HERE = os.path.dirname(os.path.abspath(__file__))
if __name__ == "__main__":
    sys.path[:0] = [HERE, *(os.path.join(os.path.dirname(HERE), it) for it in ("", "others", "live"))]

from model import Answer, Model, Start  # noqa: E402
from second import Machine  # noqa: E402
from standin import StandIn, main, write_all  # noqa: E402


# --- what is synced, and when --------------------------------------------------------------------------------------

class AnswersBeforeItSyncs(StandIn):
    """A commit is answered when it is written."""

    def sync(self) -> None:
        if self.model.is_closed:
            super().sync()


class SettlesNothing(StandIn):
    """`settle` is answered without a sync."""

    def opened(self) -> Model:
        model = super().opened()
        model.settle = lambda: Answer("ok")
        return model


class SyncsAgain(StandIn):
    """A sync that failed is tried once more, and what it says then is believed."""

    def sync(self) -> None:
        try:
            super().sync()
        except OSError:
            super().sync()


class GreetsBeforeItSyncs(StandIn):
    """A start syncs nothing."""

    def secure(self) -> None:
        os.lseek(self.file, len(self.start.front), os.SEEK_SET)
        write_all(self.file, bytes(self.start.model.log[len(self.start.front):]))


class TrustsWhatItReads(StandIn):
    """A start syncs, but does not write again what a sync that failed may have left in memory alone."""

    def secure(self) -> None:
        os.fdatasync(self.file)
        os.lseek(self.file, len(self.start.front), os.SEEK_SET)
        write_all(self.file, bytes(self.start.model.log[len(self.start.front):]))
        os.fdatasync(self.file)


class WritesAtTheSync(StandIn):
    """What is done is written when it is to be safe, and not before it is answered: if the process dies, attempts are lost."""

    def settle(self, answers: list[Answer]) -> None:
        if self.model.is_closed or any(it.is_safe for it in answers):
            super().settle(answers)


# --- starts --------------------------------------------------------------------------------------------------------

class KeepsWhatIsBehind(StandIn):
    """What stands behind the front is written over, and not cut off."""

    def cut(self) -> None:
        pass


class KeepsNothingBeside(StandIn):
    """What is cut off is not kept."""

    def keep(self) -> None:
        pass


class AbortsNothing(StandIn):
    """A start leaves out the ABORTs of the units that were open."""

    def secure(self) -> None:
        del self.start.model.log[len(self.start.front):]
        super().secure()


class RefusesGarbage(StandIn):
    """A start refuses what a power cut leaves."""

    def __init__(self, path: str, creates: bool) -> None:
        Start.is_left_by_crash = lambda it: it.why in ("whole", "cut")
        super().__init__(path, creates)


# --- a new log -----------------------------------------------------------------------------------------------------

class NamesBeforeItSyncs(StandIn):
    """A new log has the log's name before it is on the disk."""

    def fill(self, file: int, new: bytes) -> None:
        write_all(file, new)


class SyncsNoNames(StandIn):
    """The disk is not told of the new log's name."""

    def sync_names(self) -> None:
        pass


class TrustsItsName(StandIn):
    """A start does not tell the disk of the log's name, which a process that was killed may have given it."""

    carries = True

    def keep_name(self) -> None:
        pass


class KeepsNoOldLog(StandIn):
    """The log that it went on from is gone."""

    def name_old(self, kept: str) -> None:
        pass


class CarriesBeforeItSettles(StandIn):
    """The new log has what was not written to the old one."""

    def settle_old(self) -> None:
        pass


class WritesBehindTheOldLog(StandIn):
    """It goes on in the file that was the log."""

    def put_on(self, records: int, new: bytes) -> None:
        old = os.dup(self.file)
        super().put_on(records, new)
        os.dup2(old, self.file)
        os.lseek(self.file, 0, os.SEEK_END)


# --- lines ---------------------------------------------------------------------------------------------------------

class DoesHalfALine(StandIn):
    """At the end of input it does what stands behind the last LF."""

    def serve(self) -> None:
        read = os.read

        def reads(file: int, count: int) -> bytes:
            piece = read(file, count)
            if file == 0:
                self.is_halved = piece[-1:] != b"\n" if piece else self.is_halved
                if not piece and self.is_halved:
                    self.is_halved = False
                    return b"\n"
            return piece

        self.is_halved = False
        os.read = reads
        super().serve()


class DropsAnAnswer(StandIn):
    """Of many answers at once one is left out."""

    def say(self, text: str) -> None:
        lines = text.split("\n")
        super().say("\n".join(lines[:3] + lines[4:]) if len(lines) > 12 else text)


# --- what lines do -------------------------------------------------------------------------------------------------

class WithModel(StandIn):
    """A program whose model is wrong."""
    made: type[Model] = Model

    def opened(self) -> Model:
        model = super().opened()
        model.__class__ = self.made
        return model


class ForgetsAnElement(WithModel):
    """A commit loses an element of its unit."""

    class made(Model):
        def commit(self, unit: int, is_later: bool = False) -> Answer:
            fresh = [id for id, it in self.machine.elements.items() if it.fresh == unit]
            answer = super().commit(unit, is_later)
            if len(self.log) % 7 == 0 and fresh:
                del self.machine.elements[fresh[0]]
            return answer


class TakesTwice(WithModel):
    """A dequeue hands out what another unit holds."""

    class made(Model):
        def dequeue(self, unit: int, name: bytes, who: bytes, tag: int) -> Answer:
            answer = super().dequeue(unit, name, who, tag)
            held = [id for id, it in self.machine.elements.items() if it.held not in (None, unit) and self.machine.queues[it.home][0] == name]
            if answer.text != "none" or not held:
                return answer
            it = self.machine.elements[held[0]]
            return Answer(f"element {held[0]} {self.machine.queues[it.origin][0].decode()} {it.priority} {it.attempts} {it.payload.hex() or '-'}")


class CommitsWhatIsDoomed(WithModel):
    """A unit in which a line was refused is committed."""

    class made(Model):
        def commit(self, unit: int, is_later: bool = False) -> Answer:
            self.doomed.discard(unit)
            return super().commit(unit, is_later)


class ErrorsDoomNobody(WithModel):
    """A line that is no request leaves the open units as they are."""

    class made(Model):
        def answered(self, line: bytes) -> Answer:
            doomed = set(self.doomed)
            answer = super().answered(line)
            self.doomed = doomed if answer.text.startswith("error") else self.doomed
            return answer


class ForgetsHowFar(WithModel):
    """Who registers again is told nothing, now and then."""

    class made(Model):
        def told(self, queue: int, who: bytes) -> str:
            return "last none" if len(self.log) % 5 == 0 else super().told(queue, who)


class NeverMoves(WithModel):
    """An element that was tried too often stays where it is."""

    def opened(self) -> Model:
        model = super().opened()

        def give_back(it: object) -> None:
            it.held, it.attempts = None, it.attempts + 1
        model.machine.give_back = give_back
        return model


class NewestFirst(WithModel):
    """Of the elements of a priority the newest goes first."""

    def opened(self) -> Model:
        model, free = super().opened(), Machine.free
        model.machine.free = lambda queue: sorted(free(model.machine, queue), key=lambda id: (-model.machine.elements[id].priority, -id))
        return model


class ForgetsOpenUnits(WithModel):
    """A new log has no open units, nor what they did."""

    class made(Model):
        def carry_on(self) -> int:
            for unit in sorted(self.machine.open):
                self.machine.abort(unit)
            return super().carry_on()


class LosesTheLink(StandIn):
    """A new log is chained to nothing."""

    def opened(self) -> Model:
        model = super().opened()
        carry_on = model.carry_on

        def unlinked() -> int:
            end, model.log[-32:] = bytes(model.log[-32:]), bytes(32)
            records = carry_on()
            model.past[-1] = (records, model.past[-1][1][:-32] + end)
            return records
        model.carry_on = unlinked
        return model


class SpendsNothing(StandIn):
    """A write that failed is forgotten, and it goes on."""

    def write(self) -> None:
        try:
            super().write()
        except OSError:
            self.written = len(self.model.log)


PROGRAMS: dict[str, type[StandIn]] = {it.__name__: it for it in (
    AnswersBeforeItSyncs, SettlesNothing, SyncsAgain, GreetsBeforeItSyncs, TrustsWhatItReads, WritesAtTheSync, KeepsWhatIsBehind, KeepsNothingBeside,
    AbortsNothing, RefusesGarbage, DoesHalfALine, DropsAnAnswer, ForgetsAnElement, TakesTwice, CommitsWhatIsDoomed, ErrorsDoomNobody, ForgetsHowFar,
    NeverMoves, NewestFirst, SpendsNothing, NamesBeforeItSyncs, SyncsNoNames, TrustsItsName, KeepsNoOldLog, CarriesBeforeItSettles,
    WritesBehindTheOldLog, ForgetsOpenUnits, LosesTheLink)}
# So many lives are tried at most until one shows it. TrustsWhatItReads is seen in one of some 24: what a sync lost shows only if nothing is
# written to its pages later. All others are seen in the first few.
LIVES = 150


def program_of(name: str, folder: str) -> str:
    """A program that runs the wrong one of this name."""
    path = os.path.join(folder, name)
    with open(path, "w", encoding="utf-8") as file:
        file.write(f'#!/bin/sh\nexec {shlex.quote(sys.executable)} {shlex.quote(os.path.abspath(__file__))} {name} "$@"\n')
    os.chmod(path, 0o755)
    return path


if __name__ == "__main__":
    sys.exit(main(PROGRAMS[sys.argv[1]], sys.argv[2:]))
