//! Stand-in: the process's generator. No random instruction is compared.
