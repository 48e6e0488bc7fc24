// What is said in words.

function shownCell(cell) {
  return `column ${cell[0]}, row ${cell[1]}`;
}

/** An amount, a time or a place in an order. Numbers of agents, columns and rows are names, and have no commas. */
function shownNumber(number, digits = 1) {
  return number.toLocaleString("en", { maximumFractionDigits: digits });
}

function counted(number, one, many) {
  return `${shownNumber(number)} ${number === 1 ? one : many}`;
}

/** Numbers of agents as a list, cut where it gets long. */
function listed(agents, most = 12) {
  const shown = Array.from(agents.slice(0, most)).join(", ");
  return agents.length > most ? `${shown} and ${shownNumber(agents.length - most)} more` : shown;
}

/** Faults in a line, of which only some are named. */
function faultsInWords(faults, most = 2) {
  const more = faults.length - most;
  const words = faults.slice(0, most).map((it) => it.words).join(" ");
  return more > 0 ? `${words} ${counted(more, "more fault is", "more faults are")} marked.` : words;
}

/** An element with a class and children, each a text or an element. */
function made(name, className, ...children) {
  const element = document.createElement(name);
  if (className) element.className = className;
  element.append(...children);
  return element;
}

function button(text, act, title = "") {
  const element = made("button", "", text);
  element.type = "button";
  element.title = title;
  element.addEventListener("click", act);
  return element;
}

/** How a run can end, as the program says, and how many moves are left; whether each agent is seen at its end. */
function endingInWords({ ending, left }, isSeen) {
  const [word, number] = ending.split(" ");
  if (word === "blocked") return `Blocked: rotation ${number} can never begin, so no events bring this run to its end.`;
  if (left) return `Behind the last event ${counted(left, "move is left, and nothing blocks it", "moves are left, and nothing blocks them")}.`;
  return isSeen ? "Behind the last event every agent has arrived." : "Behind the last event no move is left: a restart will show that every agent has arrived.";
}
