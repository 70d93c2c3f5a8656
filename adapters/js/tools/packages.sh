#!/bin/sh
# Takes files of Debian's packages through, and looks whether they still run:
#   apt-get install nodejs node-acorn node-lodash libjs-jquery node-react node-jsdom
cd "$(dirname "$0")" || exit 1
export NODE_PATH=/usr/share/nodejs
failed=0
./still_runs.js /usr/share/nodejs/lodash/lodash.js \
  'it.chunk([1, 2, 3, 4, 5], 2)' 'it.template("<%= a %>!")({ a: 1 })' 'it.groupBy([1.2, 1.8, 2.1], Math.floor)' \
  'it.camelCase("foo bar")' 'it([3, 1, 2]).sortBy().map((x) => x * 2).value()' || failed=1
./still_runs.js /usr/share/nodejs/react/cjs/react.development.js \
  'it.version' 'it.createElement("p", { id: 1 }, "text").props' 'it.Children.count([1, 2, 3])' \
  'it.isValidElement(it.cloneElement(it.createElement("a")))' || failed=1
./still_runs.js /usr/share/javascript/jquery/jquery.js \
  'it(new (require("jsdom").JSDOM)("<p>a</p><p>b</p>").window)("p").addClass("c").text()' || failed=1
exit $failed
