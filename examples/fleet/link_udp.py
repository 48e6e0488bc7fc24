"""A link by UDP, to a list of peers or to a multicast group: a datagram is a message, and is lost, repeated or overtaken as the network does."""
import socket
from typing import Optional, Sequence

from addresses import Address
from letters import Letter

# No datagram is longer.
LONGEST = 65_535


class UdpLink:
    """Two sockets: one on which the others are heard, and one that sends, whose own datagrams are known by their sender."""

    def __init__(self, own: Address, peers: Sequence[Address], group: Optional[Address]):
        self.to = [group] if group else list(peers)
        self.unsent = 0
        self.ears = socket.socket(socket.AF_INET, socket.SOCK_DGRAM)
        self.mouth = socket.socket(socket.AF_INET, socket.SOCK_DGRAM)
        if group:
            self._join(own, group)
        else:
            self.ears.bind(own)
        self.mouth.bind((own[0], 0))
        self.ears.setblocking(False)
        self.mouth.setblocking(False)

    def _join(self, own: Address, group: Address) -> None:
        """Several robots of one machine may listen to a group."""
        self.ears.setsockopt(socket.SOL_SOCKET, socket.SO_REUSEADDR, 1)
        self.ears.bind(group)
        member = socket.inet_aton(group[0]) + socket.inet_aton(own[0])
        self.ears.setsockopt(socket.IPPROTO_IP, socket.IP_ADD_MEMBERSHIP, member)
        self.mouth.setsockopt(socket.IPPROTO_IP, socket.IP_MULTICAST_IF, socket.inet_aton(own[0]))
        self.mouth.setsockopt(socket.IPPROTO_IP, socket.IP_MULTICAST_TTL, 1)

    def fileno(self) -> int:
        """Is readable where messages wait."""
        return self.ears.fileno()

    def send(self, message: bytes) -> None:
        """Sends to all. What can't be sent just now is lost, as much else is."""
        for address in self.to:
            try:
                self.mouth.sendto(message, address)
            except OSError:
                self.unsent += 1

    def received(self) -> list[Letter]:
        """The messages that wait."""
        letters = []
        while True:
            try:
                message, sender = self.ears.recvfrom(LONGEST)
            except OSError:
                return letters
            if sender != self.mouth.getsockname():
                letters.append(Letter(message))

    def close(self) -> None:
        self.ears.close()
        self.mouth.close()
