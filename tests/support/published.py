"""Checksums (SHA-256) of what others publish, taken from their copies of it."""

# By its URI, of each meta-schema without its comments, as JSON with sorted keys and no white space. The texts are those of Debian's
# package python3-jsonschema 4.10.3; that of draft 4 is in node-ajv 6.12.6. None has the vocabulary `format-assertion`.
META_SCHEMAS = {
    "http://json-schema.org/draft-04/schema":
        "c8aa3d8de08d4e2048ed2d5a223c31f5dcf4dcbc2adcea628e0a522f0e1ba44a",
    "http://json-schema.org/draft-06/schema":
        "07d8be64c0c0d2ad7fd68509ea28ba3e5243703655ff2e5a1970cfc6abc090ae",
    "http://json-schema.org/draft-07/schema":
        "da5bd21537a9302d67f551e3876afcdd9b5f212748764e1aa79ffd23d268474a",
    "https://json-schema.org/draft/2019-09/meta/applicator":
        "b7b34b2551fbbf139502ef1a5ed134b50214d6d15647e8498d8f33857fc7f8d8",
    "https://json-schema.org/draft/2019-09/meta/content":
        "4dbfe51279467891d13371cf8d2fe5a9c375c5779f8c6852df8fca95157efb2e",
    "https://json-schema.org/draft/2019-09/meta/core":
        "9832c8bbd29c4aa34bdf9625c14bc200016a42828ee63814eb60fa0650843668",
    "https://json-schema.org/draft/2019-09/meta/format":
        "e6c874b36a3a0522ae8a059e139ea9232f4375f7835d4788322862723e4ebc63",
    "https://json-schema.org/draft/2019-09/meta/meta-data":
        "8c685e5129ef0e49f6af2881c26419b3cab9f2326dbba6e66971f23d642b7964",
    "https://json-schema.org/draft/2019-09/meta/validation":
        "e4c01a8d9ca3ac0379ace5af307f3ed911df6257b7a98f9058ef89ffb3437582",
    "https://json-schema.org/draft/2019-09/schema":
        "c497e0d328f6bd53ab08d1c9b75795c586e9d2115e88320752948b4a10fc70aa",
    "https://json-schema.org/draft/2020-12/meta/applicator":
        "46a5141432ac51fff467e6c2230c19cba0b07d6a492c0fb062a1a852c370eed7",
    "https://json-schema.org/draft/2020-12/meta/content":
        "adcc808be6d10c12a2fcdf3123ecc4b56b18df58fc86001f2740ddd10fdeedfd",
    "https://json-schema.org/draft/2020-12/meta/core":
        "eaab21805e98551ecfce0404cb80fe1c63e1905c602b647bd499566974c7b620",
    "https://json-schema.org/draft/2020-12/meta/format-annotation":
        "f35165bc538974536af0c491819172f68e32e304e677742e67fe12f008731e60",
    "https://json-schema.org/draft/2020-12/meta/meta-data":
        "5b3b96d59a4a2f16fc72a0dcaf758aea40aae866a61ac9d0d71dd9d6a8603115",
    "https://json-schema.org/draft/2020-12/meta/unevaluated":
        "61f01418e98cdbb0ad0fbfbd593780bdadb7fb745a7adff646d26c103bc6d166",
    "https://json-schema.org/draft/2020-12/meta/validation":
        "34fba27426a2fe175b459326a4013434775f06dd33d1209cab9028decae1e240",
    "https://json-schema.org/draft/2020-12/schema":
        "66fe3d8d99e62d0f39f3c0fabe5612f860e5a3031d4abf8dd8155d0e4617a024",
}

# Of the general categories of Unicode 14.0.0, by Python's `unicodedata`: for each run of code points of one category a line with the code
# point after its end, and the category.
CATEGORIES = "1a8ad298ea2806dd07c392c306213a001245379af454c6444b6bf1feb9bff40a"

# Of the properties of Unicode 17.0.0 by `\\p` of regular expressions in Node.js 20.20.2 (ICU 78.2): for each run of characters that have
# it a line as `0041..005A`.
IDENTIFIERS = {
    "ID_Start": "d0cdb0f92e8155d9b7685548e27e4f6cbe89e8c67ba39e627fb894d28767eed6",
    "ID_Continue": "315a8743865af85d5fc4505631f707dc700b6cbd30b90347d5ee925392d48de9",
}
