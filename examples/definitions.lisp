;; Types of the file's own. Behind each query stands what it is answered by, and behind a NIL an object that is in the
;; first type alone.
(deftype one-of (&rest objects) `(member ,@objects))
(deftype square (&optional element size) `(array ,element (,size ,size)))
(deftype tagged (tag &optional (body t)) `(cons (eql ,tag) ,body))
(deftype drawing () '(or shape (tagged :group list)))
(deftype tree (leaf) `(or ,leaf (cons (tree ,leaf) (tree ,leaf))))

(defstruct shape "What is drawn." (layer 0))
(defstruct (circle (:include shape (layer 1)) (:copier nil)) radius)
(defstruct (box (:include shape)) width height)
(defstruct (square-box (:include box)))
(defstruct (point (:type list)) x y)
(defstruct (label (:include text)) anchor)

(templates)
(subtypep '(one-of red green) '(one-of red green blue))           ; => T
(subtypep '(one-of red white) '(one-of red green blue))           ; => NIL: WHITE
(subtypep '(square bit 3) '(simple-array bit))                    ; => NIL: one that is not simple
(subtypep 'square '(array * (* *)))                               ; => T
(subtypep '(tagged :group null) '(tagged :group list))            ; => T
(subtypep '(tagged :group) '(tagged :group list))                 ; => NIL: (:GROUP . 1), for instance

(structures)
(subtypep 'square-box 'shape)                                     ; => T
(subtypep 'shape '(or circle box))                                ; => NIL: a SHAPE that is neither
(subtypep '(and circle box) nil)                                  ; => T
(subtypep '(and shape (not box)) '(not square-box))               ; => T
(subtypep 'structure-object 'shape)                               ; => NIL: a structure of another type
(subtypep '(or circle (tagged :group null)) 'drawing)             ; => T
(subtypep 'drawing '(or structure-object cons))                   ; => T

(what-is-refused)
(subtypep '(tagged) t)                                            ; => REFUSED ARGUMENT-COUNT
(subtypep '(tree integer) t)                                      ; => REFUSED RECURSIVE-TYPE
(subtypep 'point t)                                               ; => REFUSED UNKNOWN-TYPE
(subtypep 'label t)                                               ; => REFUSED BAD-DEFINITION
(subtypep '(shape) t)                                             ; => REFUSED BAD-ARGUMENT
