// The checks of hash tables, which may take long in a file that was made for that: each in a worker of its own, with the
// file in its own module, so that it can be ended at any time.
import { Client } from "./client.js";

let running = null;

function changed(table) {
  for (const listener of table.listeners) listener();
}

/** Checks each hash table of the file, one after the other. */
export async function checkHashes(file, module, source) {
  running?.client.end("Another file is opened.");
  running = null;
  for (const table of file.hashTables) {
    if (table.said) continue;
    const outcome = await check(table, module, { source, tables: file.segmentTables });
    if (outcome === "replaced") return;
  }
}

async function check(table, module, { source, tables }) {
  const client = new Client();
  const own = { client, table };
  running = own;
  table.running = true;
  changed(table);
  try {
    await client.ask("load", { file: source, module });
    await client.ask("header");
    if (table.section.isAdded) await client.ask("segmentTables", tables);
    table.said = await client.ask("checkHash", { section: table.section.index });
  } catch (error) {
    table.said = { failed: error.message };
  }
  table.running = false;
  changed(table);
  client.end();
  return running === own ? "done" : "replaced";
}

/** Ends the check of a table, whatever it has done. */
export function stopCheck(table) {
  if (running?.table === table) running.client.end("The check was stopped.");
}
