// Reads a report and a script, and puts the steps in order, or says why not.

import {answer_faults} from './answers.mjs';
import {lost_bits} from './bits.mjs';
import {order_deferred} from './deferred.mjs';
import {order, shortest_cycle} from './order.mjs';
import {read_report} from './reading.mjs';
import {mismatch, read_script} from './script.mjs';
import {steps_of} from './steps.mjs';
import {Words} from './words.mjs';

/**
 * A run whose steps stand in order, with its `faults`, each in `words`: what no run leaves, though there is an order. Or
 * `error`: why the report is refused, or the shortest cycle in words.
 */
export function read_run(report_text, script_text = '') {
  let report, script = null;
  try {
    report = read_report(report_text);
  } catch (error) {
    return {error: told('report', error)};
  }
  try {
    if (script_text) script = read_script(script_text);
  } catch (error) {
    return {error: told('script', error)};
  }
  const differs = script && mismatch(script, report);
  if (differs) return {error: `The report is not of this script: ${differs}.`};
  const run = steps_of(report, script), words = new Words(report), lost = lost_bits(report);
  const faults = [...answer_faults(report, script), ...lost.map(one => ({words: words.lost(one), place: one.place}))];
  const found = in_order(run, words);
  if (found.error) return {error: [...faults.map(fault => fault.words), found.error].join('\n'), is_cycle: true};
  const {graph, played, lists, units} = run;
  words.turns(found.row);
  return {report, script, ...found, graph, played, lists, units, words, lost, faults};
}

// All steps in one row, and at how many places the order of deferred work is open; or why there is none.
function in_order(run, words) {
  const {row, left} = order(run.graph);
  if (!row) return {error: words.cycle(shortest_cycle(run.graph, left))};
  const {chains, open, stuck} = order_deferred(run, row);
  if (stuck) return {error: words.stuck(stuck)};
  const both = with_chains(run.graph, chains);
  return both ? {row: both, open} : place_by_place(run, row);
}

// The row of all steps with those of each chain in its order, or null; the chains are then taken back.
function with_chains(graph, chains) {
  const {edges} = graph;
  for (const chain of chains) chain.forEach((step, at) => graph.before(chain[at - 1], step, 'defer'));
  const {row} = order(graph);
  if (!row) graph.edges = edges;
  return row;
}

// Each place has an order, but those that were found don't go together: the places are taken one by one, each with the orders
// of those before it given. What still doesn't go together is open, since another order of an earlier place might do.
function place_by_place(run, first) {
  let row = first, open = 0;
  order(run.graph);
  for (const place of run.deferred.keys()) {
    const {chains} = order_deferred(run, row, [place]), next = chains?.length ? with_chains(run.graph, chains) : null;
    if (next)
      row = next;
    else {
      open += 1;
      row = order(run.graph).row;
    }
  }
  return {row, open};
}

function told(what, error) {
  if (error.name !== 'Refusal') throw error;
  return `The ${what} is refused. ${error.message[0].toUpperCase()}${error.message.slice(1)}`;
}
