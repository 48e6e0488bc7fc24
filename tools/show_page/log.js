// The events of a run with their replies, and the messages that go from one to another.

const KINDS = ["start", "finish", "say", "deliver", "restart", "tear"];
const DELIVER = 3, RESTART = 4;
const REPLIES = ["moving", "arrived", "said", "heard", "at", "between", "armed", "refused"];
const MOVING = 0, ARRIVED = 1, SAID = 2, HEARD = 3, AT = 4, BETWEEN = 5, IS_ARMED = 6, REFUSED = 7;
const REASONS = ["Waits", "StoreFailed", "Broken"];
const FOR_OTHER = 0, STORE_FAILED = 1, IS_BROKEN = 2, OTHERWISE = 3;

// How many messages are drawn at once.
const MOST_LETTERS = 300;

/** The events and the replies as numbers. */
class Log {
  constructor(events, replies, agents) {
    this.events = events;
    this.replies = replies;
    const count = events.length;
    this.kind = new Uint8Array(count);
    this.who = new Int32Array(count);
    this.message = new Int32Array(count).fill(-1);
    this.reply = new Uint8Array(count);
    this.reason = new Uint8Array(count);
    this.numbers = new Int32Array(5 * count);
    this.sayOf = [];
    for (let event = 0; event < count; event += 1) this.read(event, agents);
  }

  read(event, agents) {
    const [kind, who, more] = this.events[event].split(" ");
    this.kind[event] = KINDS.indexOf(kind);
    this.who[event] = Number(who) < agents ? Number(who) : -1;
    if (kind === "deliver" && Number(more) < this.sayOf.length) this.message[event] = Number(more);
    const words = this.replies[event].split(" ");
    this.reply[event] = REPLIES.indexOf(words[0]);
    if (words[0] === "said") {
      this.message[event] = this.sayOf.length;
      this.sayOf.push(event);
    } else if (words[0] === "refused") {
      const reason = REASONS.indexOf(words[1]);
      this.reason[event] = reason < 0 ? OTHERWISE : reason;
      this.numbers.set(words.slice(2, 4).map(Number), 5 * event);
    } else {
      this.numbers.set(words.slice(1).filter((it) => it !== "done").map(Number), 5 * event);
    }
  }

  isFailure(event) {
    return this.reply[event] === REFUSED && this.reason[event] === STORE_FAILED;
  }
}

/** The messages on their way, each from its event `say` to an event `deliver`, and those that nobody ever hears. */
class Post {
  constructor(log) {
    this.log = log;
    this.from = [];
    this.to = [];
    const heard = new Uint8Array(log.sayOf.length);
    const letters = [];
    log.kind.forEach((kind, event) => {
      if (kind === DELIVER && log.message[event] >= 0 && log.who[event] >= 0) {
        heard[log.message[event]] |= log.reply[event] === HEARD ? 1 : 0;
        letters.push([log.sayOf[log.message[event]], event]);
      }
    });
    letters.sort((one, other) => one[0] - other[0]);
    for (const [from, to] of letters) {
      this.from.push(from);
      this.to.push(to);
    }
    this.lost = log.sayOf.filter((_, message) => !heard[message]);
    this.block = Math.max(256, Math.ceil(log.kind.length / 1000));
    this.index();
  }

  /** For the beginning of each block of events, which letters are on their way then, and the first that is sent behind it. */
  index() {
    this.active = [];
    this.next = [];
    let letters = [], place = 0;
    for (let begin = 0; begin <= this.log.kind.length; begin += this.block) {
      while (place < this.from.length && this.from[place] < begin) {
        letters.push(place);
        place += 1;
      }
      letters = letters.filter((it) => this.to[it] >= begin);
      this.active.push(letters.slice(-MOST_LETTERS));
      this.next.push(place);
    }
  }

  /** The letters on their way when so many events have been answered. */
  underWay(count) {
    const block = Math.floor(count / this.block);
    const found = this.active[block].filter((it) => this.to[it] >= count);
    for (let place = this.next[block]; place < this.from.length && this.from[place] < count; place += 1) {
      if (this.to[place] >= count) found.push(place);
    }
    return found.slice(-MOST_LETTERS);
  }

  /** The events `say` among the last ones whose message nobody ever hears. */
  lostLately(count, seen) {
    let low = 0, high = this.lost.length;
    while (low < high) {
      const middle = (low + high) >> 1;
      if (this.lost[middle] < count - seen) low = middle + 1;
      else high = middle;
    }
    const found = [];
    for (let place = low; place < this.lost.length && this.lost[place] < count; place += 1) found.push(this.lost[place]);
    return found;
  }

  /** Who hears the message of an event `say`, each once. */
  hearers(event) {
    const found = new Set();
    const { log } = this;
    for (let place = this.firstOf(event); place < this.from.length && this.from[place] === event; place += 1) {
      if (log.reply[this.to[place]] === HEARD) found.add(log.who[this.to[place]]);
    }
    return [...found].sort((one, other) => one - other);
  }

  firstOf(event) {
    let low = 0, high = this.from.length;
    while (low < high) {
      const middle = (low + high) >> 1;
      if (this.from[middle] < event) low = middle + 1;
      else high = middle;
    }
    return low;
  }
}
