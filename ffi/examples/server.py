"""A server of asyncio with a task for each connection: it says `ready`, echoes lines, crashes at the line `crash` and ends at `quit`. A task
that crashed is begun again and continues with the connection. With more crashes than the template allows, all end.

usage: server.py HISTORY     it prints the port, and writes the history text to the file"""
import asyncio
import logging
import sys

from sapyguendo import GaveUp, NotStarted, TaskSupervisor, Template


async def serve(argument, reader, writer):
    writer.write(b"ready\n")
    while (line := await reader.readline()) not in (b"", b"quit\n"):
        if line == b"crash\n":
            raise ConnectionError(argument)
        writer.write(line)
    writer.close()


async def main(history):
    connections = []
    template = Template("transient", intensity=20, period=60, max=100)
    async with TaskSupervisor(template, serve, history=history.write) as sup:

        async def accept(reader, writer):
            connections.append(writer)
            try:
                await sup.start(f"connection-{len(connections)}", reader, writer)
            except NotStarted:
                writer.close()

        async with await asyncio.start_server(accept, "127.0.0.1") as server:
            print(server.sockets[0].getsockname()[1], flush=True)
            try:
                await server.serve_forever()
            finally:
                for writer in connections:
                    writer.close()


if __name__ == "__main__":
    logging.getLogger("sapyguendo").setLevel(logging.ERROR)
    with open(sys.argv[1], "w", encoding="ascii") as file:
        try:
            asyncio.run(main(file))
        except GaveUp as gave_up:
            print(f"{gave_up}, after {gave_up.__cause__!r}", file=sys.stderr)
