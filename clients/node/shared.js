// What the page in web/ and this client share. A package has the files beside this one.
"use strict";
const fs = require("fs");
const path = require("path");

const FOLDERS = [__dirname, path.join(__dirname, "../../web")];
const shared = (name) =>
  require(FOLDERS.map((it) => path.join(it, name)).find((it) => fs.existsSync(it)));

module.exports = { shared };
