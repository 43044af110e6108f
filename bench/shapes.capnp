# The shapes of bench/shapes.fidl, for capnp.
@0xb3d1c0de5eedf00d;
using Cxx = import "/capnp/c++.capnp";
$Cxx.namespace("cp");
struct Nested { a @0 :UInt64; b @1 :UInt32; }
struct Record { id @0 :UInt32; kind @1 :UInt16; flags @2 :UInt8; active @3 :Bool; score @4 :Int64; name @5 :Text; extra @6 :Nested; }
struct Records { items @0 :List(Record); }
struct Wide {
  m1 @0 :UInt32; m2 @1 :UInt32; m3 @2 :UInt32; m4 @3 :UInt32; m5 @4 :UInt32; m6 @5 :UInt32; m7 @6 :UInt32; m8 @7 :UInt32;
  m9 @8 :UInt64; m10 @9 :UInt64; m11 @10 :UInt64; m12 @11 :UInt64; m13 @12 :UInt64; m14 @13 :UInt64;
  m15 @14 :Text; m16 @15 :Text; m17 @16 :Text; m18 @17 :Text; m19 @18 :Nested; m20 @19 :Bool;
}
struct Node { value @0 :UInt64; next @1 :Node; }
struct Item { id @0 :UInt32; size @1 :UInt64; name @2 :Text; kind @3 :UInt16; place @4 :Nested; active @5 :Bool; }
struct Items { items @0 :List(Item); }
struct Choice { union { small @0 :UInt32; large @1 :UInt64; name @2 :Text; place @3 :Nested; } }
struct Choices { items @0 :List(Choice); }
struct Texts {
  t0 @0 :Text; t1 @1 :Text; t2 @2 :Text; t3 @3 :Text; t4 @4 :Text; t5 @5 :Text; t6 @6 :Text; t7 @7 :Text; t8 @8 :Text; t9 @9 :Text; t10 @10 :Text; t11 @11 :Text; t12 @12 :Text; t13 @13 :Text; t14 @14 :Text; t15 @15 :Text; t16 @16 :Text; t17 @17 :Text; t18 @18 :Text; t19 @19 :Text; t20 @20 :Text; t21 @21 :Text; t22 @22 :Text; t23 @23 :Text;
}
struct Entry { id @0 :UInt32; weights @1 :List(UInt32); scores @2 :List(Int64); name @3 :Text; last @4 :UInt64; }
struct Lists { items @0 :List(Entry); }
struct Mark { color @0 :UInt8; access @1 :UInt16; ready @2 :Bool; level @3 :Int32; number @4 :UInt32; }
struct Marks { items @0 :List(Mark); }
