// Opens the page over the book of a server.

import { Server } from "../link/server_host.js";
import { Application } from "./application.js";

const key = /** @type {HTMLMetaElement} */ (document.querySelector("meta[name=key]")).content;
new Application(new Server(location, key)).open();
