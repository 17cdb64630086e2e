/*
 * cargo_toml: manifests of Cargo, read, completed and resolved.
 *
 * Each call is a function of bytes: it opens no file, keeps nothing between calls, starts no
 * thread and prints nothing. Calls may run in as many threads as there are, also side by side;
 * none is made from a signal handler.
 *
 * TEXTS. A text is a pointer and a length in bytes, and is UTF-8. No pointer is NULL, also where
 * the length is 0. A text may hold NUL, and none has to end in it.
 *
 * ANSWERS. `out` and `out_len` are the caller's buffer. It gets as much of the answer as fits,
 * and what lies behind that stays. `*needed` gets the length of the whole answer: where it is
 * more than `out_len`, the answer was cut, perhaps within a character, and a call with a buffer
 * of that length has it whole. No NUL is added. `out` shares no byte with a text or with
 * `needed`.
 *
 * STATUS. Each call returns one of these:
 *
 *   CARGO_TOML_DONE          the answer is JSON, as is said at the call
 *   CARGO_TOML_REFUSED       the text is refused; the answer is JSON:
 *                            {"faults":[{"column":1,"key":"","line":1,"words":""}],"words":""}
 *                            with what is wrong in all, and the keys at fault, where they are known
 *   CARGO_TOML_MEMORY        memory was refused; `*needed` is 0 and `out` is as it was
 *   CARGO_TOML_BAD_ARGUMENT  an argument beside the text isn't what it has to be; the answer is
 *                            JSON: {"words":""}
 *
 * JSON has no blanks, and the keys of an object stand in the order of their bytes. Lines and
 * columns count from 1, columns in characters. A text that nests deeper than 128 is refused by
 * each call.
 *
 * KEYS. `key_1` and `key_2` are any two numbers of the caller's choice, the keys of hashed maps. Of
 * texts from strangers, take random ones: then names can't be made to collide. The answer is the
 * same for all keys.
 */
#ifndef CARGO_TOML_H
#define CARGO_TOML_H

#include <stddef.h>
#include <stdint.h>

#ifdef __cplusplus
extern "C" {
#endif

#define CARGO_TOML_DONE 0u
#define CARGO_TOML_REFUSED 1u
#define CARGO_TOML_MEMORY 2u
#define CARGO_TOML_BAD_ARGUMENT 3u

/* The limit of items that the Rust crate has by default, for `max_items`. */
#define CARGO_TOML_MAX_ITEMS 2048u

/*
 * The version of the library, as the text 1.0.1+1 and no JSON. In front of the `+` is the
 * version of the Rust crate that it follows, behind it its own. The status is CARGO_TOML_DONE.
 */
uint32_t cargo_toml_version(uint8_t *out, size_t out_len, size_t *needed);

/*
 * The manifest in a text, as it is: nothing is inherited, and no target is found. The object has
 * the keys of a Cargo.toml. A date is a text.
 */
uint32_t cargo_toml_manifest(const uint8_t *text, size_t text_len,
                             uint8_t *out, size_t out_len, size_t *needed);

/*
 * The same, completed: with what it inherits of a workspace, and with the targets that Cargo
 * finds. `paths` lists the files of the package, as seen from its folder: a path a line, or each
 * ended by a NUL. `root` is the text of the workspace's Cargo.toml, and `root_path` the absolute
 * path of that file, from whose folder inherited paths are seen; where `root_path` is empty, no
 * workspace is told.
 */
uint32_t cargo_toml_complete(const uint8_t *text, size_t text_len,
                             const uint8_t *paths, size_t paths_len,
                             const uint8_t *root, size_t root_len,
                             const uint8_t *root_path, size_t root_path_len,
                             uint8_t *out, size_t out_len, size_t *needed);

/*
 * The features of the manifest in a text, those that dependencies imply too:
 *
 *   {"cut":false,
 *    "features":{NAME:{"binaries":[TEXT],
 *                      "dependencies":{KEY:{"conditional":false,"dep_only":false,
 *                                           "features":[TEXT]}},
 *                      "enabled_by":[TEXT],"listed":true,"names":[TEXT],"public":true,
 *                      "text":TEXT or null}},
 *    "hidden":{NAME:[TEXT]}}
 *
 * Features whose names begin with `_` are hidden: they are removed, and what they turn on goes to
 * those that turn them on. `keep` lists hidden names that stay, a line each. `max_items`, from 1 to
 * 4294967295, is how many features count, how many texts of each, and how many keys of a table of
 * dependencies; `cut` says whether there are more.
 */
uint32_t cargo_toml_features(const uint8_t *text, size_t text_len,
                             const uint8_t *keep, size_t keep_len,
                             uint64_t max_items,
                             uint64_t key_1, uint64_t key_2,
                             uint8_t *out, size_t out_len, size_t *needed);

/*
 * What keeps a text from being a manifest, each with its key and its place:
 *
 *   {"faults":[{"column":1,"key":"package.edition","line":3,"words":""}]}
 *
 * The list is empty just where the text reads as a manifest.
 */
uint32_t cargo_toml_check(const uint8_t *text, size_t text_len,
                          uint8_t *out, size_t out_len, size_t *needed);

/*
 * What is amiss with the features of the manifest in a text, each with its place; `level` is
 * `error`, `warning` or `hint`:
 *
 *   {"findings":[{"code":"","column":1,"feature":"","level":"error","line":1,"text":"",
 *                 "words":""}]}
 */
uint32_t cargo_toml_lint(const uint8_t *text, size_t text_len,
                         uint64_t key_1, uint64_t key_2,
                         uint8_t *out, size_t out_len, size_t *needed);

/*
 * The line that the index of crates.io has of the crate in a text. `checksum` is that of its .crate
 * file, 64 hex digits, or empty. What the manifest leaves to a workspace is refused: complete it
 * first, or take the manifest in the .crate file.
 */
uint32_t cargo_toml_index(const uint8_t *text, size_t text_len,
                          const uint8_t *checksum, size_t checksum_len,
                          uint64_t key_1, uint64_t key_2,
                          uint8_t *out, size_t out_len, size_t *needed);

/*
 * The features of the manifest in a text for a page of documentation, in the order of their names.
 * `listed` is false of an optional dependency that serves as a feature:
 *
 *   {"features":[{"default":false,
 *                 "dependencies":{KEY:{"conditional":false,"dep_only":false,"features":[TEXT]}},
 *                 "features":[TEXT],"listed":true,"name":TEXT,"text":TEXT or null}]}
 */
uint32_t cargo_toml_document(const uint8_t *text, size_t text_len,
                             uint64_t key_1, uint64_t key_2,
                             uint8_t *out, size_t out_len, size_t *needed);

#ifdef __cplusplus
}
#endif

#endif
