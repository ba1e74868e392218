/* What start_poll_synchronize_rcu gives (liburcu 0.14). */
#ifndef URCU_OVER_RCU_POLL_H
#define URCU_OVER_RCU_POLL_H
struct urcu_gp_poll_state {
    unsigned long grace_period_id;
};
#endif
