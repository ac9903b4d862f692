//! Stand-in for self_cell: the owner is leaked, so that the dependent may
//! borrow from it for ever. No unsafe code; a run of the oracle is short.
#![forbid(unsafe_code)]

#[macro_export]
macro_rules! self_cell {
    (
        $(#[$meta:meta])*
        $vis:vis struct $Name:ident {
            owner: $Owner:ty,

            #[covariant]
            dependent: $Dependent:ident,
        }

        impl {Debug}
    ) => {
        $(#[$meta])*
        #[derive(Debug)]
        $vis struct $Name {
            owner: &'static $Owner,
            dependent: $Dependent<'static>,
        }

        impl $Name {
            $vis fn new(
                owner: $Owner,
                make: impl for<'a> FnOnce(&'a $Owner) -> $Dependent<'a>,
            ) -> Self {
                let owner: &'static $Owner = Box::leak(Box::new(owner));
                let dependent = make(owner);
                Self { owner, dependent }
            }

            $vis fn borrow_owner(&self) -> &$Owner {
                self.owner
            }

            $vis fn borrow_dependent<'a>(&'a self) -> &'a $Dependent<'a> {
                &self.dependent
            }
        }
    };
}
