/* SPDX-License-Identifier: Apache-2.0 */
/*
 * Values that are rejected, since equal ones may have different texts and would count twice: values of most types, texts of other
 * types, such as citext, and texts under a nondeterministic collation.
 */
#include "hll_pg.h"

#include "access/htup_details.h"
#include "catalog/pg_aggregate.h"
#include "catalog/pg_type.h"
#include "nodes/execnodes.h"
#include "nodes/nodeFuncs.h"
#include "parser/parsetree.h"
#include "utils/builtins.h"
#include "utils/lsyscache.h"
#include "utils/syscache.h"

#define AS_TEXT "value::text"

/*
 * What to count instead of values of a type that is rejected: a text that equal values (`=`) share, and unequal ones don't. The
 * types of the last two lines are counted as they are, and only their arrays are rejected. README.md has the same table
 * ("Values"); tests/kinds.py compares both, and tries the forms.
 */
static const struct
{
	const char *form;
	Oid			types[64];		/* and InvalidOid */
}			forms[] = {
	{"trim_scale(value)::text", {NUMERICOID}},
	{"justify_interval(value)::text", {INTERVALOID}},
	{"regexp_replace(value::text, '\\.?(?<=\\.\\d*)0+\\M', '', 'g')", {NUMERICARRAYOID, NUMRANGEOID, NUMMULTIRANGEOID}},
	{"value::oid::text", {REGCLASSOID, REGCOLLATIONOID, REGCONFIGOID, REGDICTIONARYOID, REGNAMESPACEOID, REGOPEROID,
		REGOPERATOROID, REGPROCOID, REGPROCEDUREOID, REGROLEOID, REGTYPEOID}},
	{AS_TEXT, {TIMEOID, TIMETZOID, BITOID, VARBITOID, MONEYOID, INETOID, CIDROID, MACADDROID, MACADDR8OID, OIDOID, XIDOID, XID8OID,
		CIDOID, TIDOID, PG_LSNOID, TSVECTOROID, INT4RANGEOID, INT8RANGEOID, DATERANGEOID, TSRANGEOID, TSTZRANGEOID,
		INT4MULTIRANGEOID, INT8MULTIRANGEOID, DATEMULTIRANGEOID, TSMULTIRANGEOID, TSTZMULTIRANGEOID,
		TEXTOID, VARCHAROID, NAMEOID, CHAROID, BYTEAOID, INT2OID, INT4OID, INT8OID, BOOLOID, DATEOID, TIMESTAMPOID,
		TIMESTAMPTZOID, UUIDOID}}
};

/* Returns what to count instead of values of a type, or NULL. */
static const char *
form_of(Oid type)
{
	const char *of_element;

	if (!OidIsValid(type))
		return NULL;
	type = getBaseType(type);
	for (size_t i = 0; i < lengthof(forms); i++)
		for (const Oid *listed = forms[i].types; OidIsValid(*listed); listed++)
			if (*listed == type)
				return forms[i].form;
	of_element = type_is_enum(type) ? AS_TEXT : form_of(get_element_type(type));
	return of_element != NULL && strcmp(of_element, AS_TEXT) == 0 ? AS_TEXT : NULL;
}

void
refuse_type(Oid type)
{
	const char *form = form_of(type);

	ereport(ERROR,
			(errcode(ERRCODE_DATATYPE_MISMATCH),
			 errmsg("values of type %s cannot be counted as they are", format_type_be(type)),
			 form != NULL ? errhint("Count %s, which is the same text for equal values.", form) :
			 errhint("Equal values of this type can have different texts, so count a part of the value, for example a field, a "
					 "bound or an element.")));
}

/* The step of an aggregate. */
static Oid
step_of(Oid aggregate)
{
	HeapTuple	row = SearchSysCache1(AGGFNOID, ObjectIdGetDatum(aggregate));
	Oid			step = InvalidOid;

	if (HeapTupleIsValid(row))
	{
		step = ((Form_pg_aggregate) GETSTRUCT(row))->aggtransfn;
		ReleaseSysCache(row);
	}
	return step;
}

/* Returns the node of a plan whose columns are named by this varno in its parent, or NULL. All inputs of an Append compute the
 * same expressions. */
static Plan *
input_of(Plan *plan, int varno)
{
	if (varno == INNER_VAR)
		return innerPlan(plan);
	if (varno != OUTER_VAR)
		return NULL;
	if (IsA(plan, Append))
		return linitial(((Append *) plan)->appendplans);
	if (IsA(plan, MergeAppend))
		return linitial(((MergeAppend *) plan)->mergeplans);
	return outerPlan(plan);
}

/*
 * Returns an expression of a plan as the query has it. If a node below has computed it, for example a Sort that has sorted the
 * rows of an aggregate by it (since PostgreSQL 16), the expression has been replaced by a Var without a syntactic column.
 * Where the plan doesn't show what the Var stands for, the Var is returned.
 */
static Node *
computed_below(Plan *plan, Node *value)
{
	while (IsA(value, Var) && ((Var *) value)->varnosyn == 0)
	{
		Var		   *var = (Var *) value;
		TargetEntry *column;

		plan = input_of(plan, var->varno);
		column = plan == NULL ? NULL : get_tle_by_resno(plan->targetlist, var->varattno);
		if (column == NULL)
			return value;
		value = (Node *) column->expr;
	}
	return value;
}

/*
 * Raises an error for an expression of another type that became a text by an implicit cast: a citext. The node is NULL if it
 * isn't known. A node below computes an expression once for the whole query, so the cast may also be missing in another call.
 */
static void
check_expression(PlanState *node, Node *value)
{
	Node	   *computed = node == NULL ? value : computed_below(node->plan, value);
	RelabelType *cast = (RelabelType *) computed;
	Oid			type;

	if (!IsA(computed, RelabelType) || cast->relabelformat != COERCE_IMPLICIT_CAST)
		return;
	type = getBaseType(exprType((Node *) cast->arg));
	if (type != TEXTOID && type != VARCHAROID)
		ereport(ERROR,
				(errcode(ERRCODE_DATATYPE_MISMATCH),
				 errmsg("values of type %s cannot be counted as they are", format_type_be(exprType((Node *) cast->arg))),
				 errhint("Count their spellings with CAST(value AS text), or a form that equal values share, for example "
						 "lower(value)%s.", computed == value ? "" : ", everywhere in the query")));
}

/* Checks the values of each call that shares the steps of this one: PostgreSQL takes no notice of how a cast was written. */
static void
check_aggregates(AggState *aggregates, Aggref *aggregate)
{
	ListCell   *cell;

	foreach(cell, aggregates->aggs)
	{
		Aggref	   *call = lfirst_node(Aggref, cell);

		if (call->aggtransno == aggregate->aggtransno)
			check_expression(&aggregates->ss.ps, (Node *) linitial_node(TargetEntry, call->args)->expr);
	}
}

/* Checks the values of each call of this step over a window. */
static void
check_windows(WindowAggState *windows, Oid step)
{
	ListCell   *cell;

	foreach(cell, windows->funcs)
	{
		WindowFunc *call = ((WindowFuncExprState *) lfirst(cell))->wfunc;

		if (call->winagg && step_of(call->winfnoid) == step)
			check_expression(&windows->ss.ps, linitial(call->args));
	}
}

/* Checks the values of this call: of an aggregate, of an aggregate over a window, or of a function. */
static void
check_values(FunctionCallInfo fcinfo)
{
	Aggref	   *aggregate = AggGetAggref(fcinfo);
	Node	   *call = fcinfo->flinfo->fn_expr;

	if (aggregate != NULL)
		check_aggregates((AggState *) fcinfo->context, aggregate);
	else if (fcinfo->context != NULL && IsA(fcinfo->context, WindowAggState))
		check_windows((WindowAggState *) fcinfo->context, fcinfo->flinfo->fn_oid);
	else if (call != NULL && IsA(call, FuncExpr))
		check_expression(NULL, lsecond(((FuncExpr *) call)->args));
}

/* Raises an error, once per query, for texts that are compared by another rule than their bytes, which are what is counted. */
void
check_text(FunctionCallInfo fcinfo)
{
	Oid			collation = PG_GET_COLLATION();

	if (fcinfo->flinfo->fn_extra != NULL)
		return;
	if (OidIsValid(collation) && !get_collation_isdeterministic(collation))
		ereport(ERROR,
				(errcode(ERRCODE_COLLATION_MISMATCH),
				 errmsg("texts under the nondeterministic collation \"%s\" cannot be counted as they are",
						get_collation_name(collation)),
				 errdetail("They would count by their bytes, and texts that are equal there may have different ones."),
				 errhint("Count them by their bytes with CAST(value AS text) COLLATE \"C\", or a form that equal texts share, "
						 "for example lower(value) COLLATE \"C\".")));
	check_values(fcinfo);
	fcinfo->flinfo->fn_extra = fcinfo->flinfo;
}
