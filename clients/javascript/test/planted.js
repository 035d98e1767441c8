// Ten seeded bugs, in the correct replicas of each kind to which they apply.
import { LwwSet, OrSet, CORRECT, Rga } from "./replicas.js";

/** Drops each third message that is delivered. */
const losesADelivery = (Base) =>
  class extends Base {
    received = 0;

    receive(message) {
      this.received += 1;
      if (this.received % 3 !== 0) super.receive(message);
      else if (message.stamp !== undefined) this.raiseClock(message.stamp);
    }
  };

/** Applies each third message that is delivered twice. */
const appliesTwice = (Base) =>
  class extends Base {
    received = 0;

    receive(message) {
      this.received += 1;
      super.receive(message);
      if (this.received % 3 === 0) super.receive(message);
    }
  };

/** Lets the later delivery win at equal clocks. */
const breaksTiesByArrival = (Base) =>
  class extends Base {
    isLater([clock], [thanClock]) {
      return this instanceof Rga ? clock > thanClock : clock >= thanClock;
    }
  };

/** Returns the result before the last delivery, in the first read after it. */
const readsStale = (Base) =>
  class extends Base {
    receive(message) {
      this.stale = super.read();
      super.receive(message);
    }

    read() {
      const { stale } = this;
      this.stale = undefined;
      return stale === undefined ? super.read() : stale;
    }
  };

/** Counts only its own updates in its clock. */
const doesNotRaiseItsClock = (Base) =>
  class extends Base {
    raiseClock() {}
  };

/** Applies each removal, whatever its clock. */
class LwwSetTakesUnseen extends LwwSet {
  apply(message) {
    super.apply(message);
    if (!message.isIn) this.last.set(message.element, { ...this.last.get(message.element), isIn: false });
  }
}

/** Removes all identifiers of the element, also those that the removal has not observed. */
class OrSetTakesUnseen extends OrSet {
  apply(message) {
    super.apply(message);
    if (message.identifiers !== undefined) this.pairs = this.pairs.filter((it) => it.element !== message.element);
  }
}

/** Hides the children of a removed element too. */
class RgaTakesUnseen extends Rga {
  hide(message) {
    super.hide(message);
    for (const it of this.nodes.get(message.removed).children) it.isShown = false;
  }
}

/** Applies each addition, whatever its clock. */
class LwwSetShowsAgain extends LwwSet {
  apply(message) {
    super.apply(message);
    if (message.isIn) this.last.set(message.element, { ...this.last.get(message.element), isIn: true });
  }
}

/** Removes only the first identifier of a removal that is delivered. */
class OrSetShowsAgain extends OrSet {
  receive(message) {
    super.receive({ ...message, identifiers: message.identifiers?.slice(0, 1) });
  }
}

/** Shows a removed element again when another one is inserted behind it. */
class RgaShowsAgain extends Rga {
  insert(message) {
    super.insert(message);
    if (message.anchor !== null) this.nodes.get(message.anchor).isShown = true;
  }
}

/** Ignores the removal of an absent element. */
class LwwSetForgetsAbsent extends LwwSet {
  apply(message) {
    if (message.isIn || this.last.has(message.element)) super.apply(message);
  }
}

/** Ignores the removal of an absent element. */
class OrSetForgetsAbsent extends OrSet {
  apply(message) {
    if (message.identifiers === undefined || this.read().includes(message.element)) super.apply(message);
  }
}

/** Puts the child with the earlier clock first. */
class RgaRises extends Rga {
  isLater(stamp, than) {
    return super.isLater(than, stamp);
  }
}

/** Loses an element that is inserted behind a removed one. */
class RgaLosesBehindTombstone extends Rga {
  insert(message) {
    super.insert(message);
    const isLost = message.anchor !== null && !this.nodes.get(message.anchor).isShown;
    if (isLost) this.nodes.get(message.element).isShown = false;
  }
}

const allOf = (addBug, ...kinds) => Object.fromEntries(kinds.map((kind) => [kind, addBug(CORRECT[kind])]));

/** The bugs that a history can show. */
export const OBSERVABLE = {
  "a delivery is lost": allOf(losesADelivery, ...Object.keys(CORRECT)),
  "a delivery is applied twice": allOf(appliesTwice, "counter"),
  "ties are broken by arrival": allOf(breaksTiesByArrival, "register", "lwwset", "rga"),
  "a removal takes what it has not seen": { lwwset: LwwSetTakesUnseen, orset: OrSetTakesUnseen, rga: RgaTakesUnseen },
  "an element is back after its removal": { lwwset: LwwSetShowsAgain, orset: OrSetShowsAgain, rga: RgaShowsAgain },
  "a read is stale": allOf(readsStale, ...Object.keys(CORRECT)),
  "a clock is not raised on delivery": allOf(doesNotRaiseItsClock, "register", "lwwset", "rga"),
  "a removal of an absent element is forgotten": { lwwset: LwwSetForgetsAbsent },
  "children stand in rising order": { rga: RgaRises },
  "an insertion behind a tombstone is lost": { rga: RgaLosesBehindTombstone },
};

/** The bugs that change no result of a replica. */
export const UNOBSERVABLE = {
  "a delivery is applied twice": allOf(appliesTwice, "register", "lwwset", "orset"),
  "a removal of an absent element is forgotten": { orset: OrSetForgetsAbsent },
};
