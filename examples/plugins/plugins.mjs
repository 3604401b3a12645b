// Passes each line of standard input through plug-ins: node plugins.mjs PLUGIN.wasm .. < in. One that
// traps is told of and left out, and the others go on. HUX names a program for ../../hux.
import { readFileSync } from 'node:fs';
import { basename, join } from 'node:path';
import { Trapped } from '../../run/engine.mjs';
import { Plugin } from '../../run/plugin.mjs';
import { Failure } from '../../run/values.mjs';

const hux = process.env.HUX ?? join(import.meta.dirname, '../../hux');

class Filter {
    constructor(file, plugin) {
        this.name = basename(file, '.wasm');
        this.plugin = plugin;
        this.isOver = false;
    }

    // The line that comes of one; where the plug-in refuses it or traps, the same.
    apply(line) {
        try {
            return this.isOver ? line : this.plugin.call('example:plugins/filters#apply', line);
        } catch (error) {
            this.tell(error, line.number);
            return line;
        }
    }

    tell(error, number) {
        if (error instanceof Failure) {
            const { tag, value } = error.value;
            console.log(`${number}: ${this.name} refuses it: ${tag} ${value ?? ''}`);
        } else if (error instanceof Trapped) {
            console.log(`${number}: ${this.name} is over: ${error.message}, ${error.where}`);
            this.isOver = true;
        } else throw error;
    }
}

const files = process.argv.slice(2);
const filters = await Promise.all(files.map(async (file) =>
    new Filter(file, await Plugin.load(hux, file))));
readFileSync(0, 'utf8').trimEnd().split('\n').forEach((text, i) => {
    const first = { text, number: i + 1, tags: [] };
    const line = filters.reduce((before, filter) => filter.apply(before), first);
    console.log(`${line.number}: ${line.text} [${line.tags}]`);
});
await Promise.all(filters.map(({ plugin }) => plugin.end()));
