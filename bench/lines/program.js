// Objects, closures, texts, regular expressions, exceptions: what a script uses of its interpreter.
function fib(n) { return n < 2 ? n : fib(n - 1) + fib(n - 2); }
function Point(x) { this.x = x; }
Point.prototype.add = function (o) { return new Point(this.x + o.x); };
Point.prototype.toString = function () { return 'point ' + this.x; };
var list = [];
for (var i = 0; i < 40; i++) list.push(i * 37 % 41);
list.sort(function (a, b) { return b - a; });
print(fib(10), list.slice(0, 6).join(), list.length, String(new Point(1).add(new Point(2))));
print('the quick brown fox'.split(' ').map(function (w) { return w.toUpperCase(); }).reverse().join('-'));
print('key = value'.replace(/(\w+)\s*=\s*(\w+)/, '$2=$1'), /^[a-c]+$/i.test('abCBA'), 'a1b22'.match(/\d+/g));
var seen = {};
for (var k in { a: 1, b: 2, c: [1, 2, { d: null }] }) seen[k] = typeof k;
print(JSON.stringify(seen), JSON.stringify(JSON.parse('{"x":[1,2.5,"t\\n",true,null]}')));
function guarded(f) { try { return f(); } catch (e) { return e.name; } finally { seen.done = 1; } }
print(guarded(function () { return undefinedName; }), guarded(function () { return null.x; }), guarded(function () { return 1; }));
outer: for (i = 0; i < 5; i++) { for (var j = 0; j < 5; j++) { if (j == 3) continue outer; if (i == 3) break outer; } }
switch (i) { case 1: print('one'); break; case 3: print('three'); default: print('more'); }
do { i--; } while (i > 0);
with (Math) { print(floor(2.7), max(1, 5, 3), abs(-4), round(2.5), pow(2, 10)); }
print(parseInt('ff', 16), (255).toString(2), (1234.5678).toFixed(2), 0.1 + 0.2, 1e21, -0, NaN, 7 >>> 1, -7 >> 1, 5 ^ 3, ~4);
var late = function () { var count = 0; return function () { return ++count; }; }();
late(); print(late(), delete seen.a, 'a' in seen, void 0, list instanceof Array, [1, [2, 3]].concat(4).length);
