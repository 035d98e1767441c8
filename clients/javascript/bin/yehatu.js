#!/usr/bin/env node
// The command `yehatu`.
import { main } from "../src/command.js";

process.exitCode = await main(process.argv.slice(2));
