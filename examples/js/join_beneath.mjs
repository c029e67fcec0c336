// Reads requests, one per line, and prints where below /srv each ends, or why it is refused.
//
//   printf '%s\n' a/../b ../etc/passwd | node join_beneath.mjs
//
// prints `/srv/b`, and then `../etc/passwd: the request leads out of its root`.
import {createInterface} from "node:readline";
import {EscapesError, load} from "unix_path";

const {joinBeneath} = await load();

for await (const request of createInterface({input: process.stdin})) {
    try {
        console.log(joinBeneath("/srv", request));
    } catch (error) {
        if (!(error instanceof EscapesError)) {
            throw error;
        }
        console.log(`${request}: ${error.message}`);
    }
}
