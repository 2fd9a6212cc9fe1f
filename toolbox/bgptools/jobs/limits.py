"""What a worker process may take, and what the queues before the workers may hold."""
from __future__ import annotations

from dataclasses import dataclass
from typing import Dict

MIB = 1 << 20


@dataclass(frozen=True)
class Limits:
    """All limits of a pool. Times are seconds, sizes bytes.

    The first group holds for each worker with the programs that it starts; past it the request ends with a Mistake."""
    # By the clock. A picture of 200 routers takes a few seconds on a slow build, where nothing was asked before; and
    # several times as long for those who look, who give way to all others, where the processors have much to do.
    picture_time: float = 60.0
    # By the clock. A what-if whose change makes many routers choose anew may take a minute.
    long_time: float = 120.0
    # More for each line of the script, and for each byte of a log that is checked: several times what they take.
    line_time: float = 0.0005
    byte_time: float = 0.00001
    # Processor time for one request, of the worker and of each program: a loop ends also where nobody waits.
    processor_time: int = 600
    # Resident memory of a worker and its programs together, looked at 20 times a second. A program that was built
    # without proofs reserves terabytes of addresses and uses few, so its addresses cannot be limited.
    memory: int = 2048 * MIB
    # Address space of the worker's Python alone: what it asks for at once fails before the system is short of memory.
    address_space: int = 4096 * MIB
    # A worker writes no file; the program writes none either.
    file_size: int = MIB
    # Four programs with two pipes each, and what Python itself holds open.
    open_files: int = 128
    # Processes of one worker: it has four programs, and one that ends.
    processes: int = 16
    # Processes and threads that may come while a request is served. The system counts those of a user, over the whole
    # machine, and for root it counts none: then `processes` alone holds.
    threads: int = 256
    # An answer. A picture of 200 routers has under 1 MB.
    answer: int = 16 * MIB
    # What is read of a worker's standard error, where it failed; it may write as much as a file may have.
    errors: int = 4096
    # How much a worker that serves those who look gives way to all others, as by nice(1).
    niceness: int = 10

    # Processes for what-ifs and checks at once: two leave processors for pictures and for the server.
    long_workers: int = 2
    # Requests of one person that wait: a page asks for a picture and a table, and then waits for them.
    waiting_of_one: int = 4
    # Requests of all that wait for the same workers: a few of each page that a lab may have.
    waiting: int = 1024
    # What these requests hold.
    waiting_bytes: int = 64 * MIB
    # A lower rank is served after so many requests of higher ones, so that nobody starves.
    patience: int = 8
    # Pictures that are kept, with their keys.
    cache: int = 64 * MIB

    def of_worker(self) -> Dict[str, int]:
        """Those that a worker sets for itself, as it is told them."""
        names = ("processor_time", "memory", "address_space", "file_size", "open_files", "processes", "threads",
                 "answer")
        return {name: getattr(self, name) for name in names}
